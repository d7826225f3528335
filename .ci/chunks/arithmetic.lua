-- what operators make of numbers
function get_streams()
  local sums = { 7 + 2, 2 - 7, 7 * -2, -7 - -7, -(3 + 4), 2 + 3 * 4, (2 + 3) * 4, 10 - 4 - 3, 0 - 999 }
  local quotients = {}
  local rests = {}
  local order = {}
  for a = -3, 3 do
    for b = -2, 2 do
      if b ~= 0 and #rests < 39 then
        table.insert(quotients, math.floor(a / b))
        table.insert(rests, a % b)
      end
    end
  end
  table.insert(sums, 84 / 7)
  table.insert(sums, -84 / 7)
  table.insert(sums, 9007199254740992 % 1000)
  table.insert(sums, (9007199254740992 - 1) % 997)
  table.insert(sums, math.floor(9007199254740991 / 9007199254741))
  for a = -1, 1 do
    for b = -1, 1 do
      local code = 0
      if a < b then code = code + 1 end
      if a <= b then code = code + 2 end
      if a > b then code = code + 4 end
      if a >= b then code = code + 8 end
      if a == b then code = code + 16 end
      if a ~= b then code = code + 32 end
      table.insert(order, code)
    end
  end
  table.insert(order, math.abs(-4) + math.abs(4))
  table.insert(order, math.min(-1, 1))
  table.insert(order, math.max(-1, 1))
  return passing(sums, quotients, rests, order)
end
