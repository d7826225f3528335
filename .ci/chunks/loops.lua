-- loops, blocks, and ways out of them
function counted()
  local found = {}
  for i = 1, 3 do table.insert(found, i) end
  for i = 3, 1, -1 do table.insert(found, i) end
  for i = 1, 10, 4 do table.insert(found, i) end
  for i = 2, 1 do table.insert(found, 99) end
  for i = 5, 5 do table.insert(found, i) end
  local last = 3
  for i = 1, last do
    last = 1
    table.insert(found, i * 10)
  end
  for i = 1, 3 do
    table.insert(found, i)
    i = 7
  end
  return found
end

function tested()
  local found = {}
  local n = 27
  while n ~= 1 and #found < 20 do
    table.insert(found, n % 1000)
    if n % 2 == 0 then n = n / 2 else n = 3 * n + 1 end
  end
  while false do table.insert(found, 99) end
  repeat
    local seen = #found
    table.insert(found, seen)
  until seen >= 22
  return found
end

function first_square_above(limit)
  for i = 1, 100 do
    if i * i > limit then return i * i end
  end
  return -1
end

function left()
  local found = {}
  for i = 1, 10 do
    if i == 4 then break end
    for j = 1, 10 do
      if j > i then break end
      table.insert(found, 10 * i + j)
    end
  end
  local i = 0
  while true do
    i = i + 1
    if i > 5 then break end
    if i % 2 == 0 then
      table.insert(found, i)
    end
  end
  repeat
    table.insert(found, 0)
    do break end
  until true
  table.insert(found, first_square_above(50))
  table.insert(found, first_square_above(999999))
  return found
end

x = 1
function scopes()
  local found = { x }
  local x = 2
  table.insert(found, x)
  do
    local x = x + 10
    table.insert(found, x)
    if x > 5 then
      local x = 4
      x = x + 1
      table.insert(found, x)
    end
    x = x + 1
    table.insert(found, x)
  end
  table.insert(found, x)
  for x = 7, 8 do table.insert(found, x) end
  table.insert(found, x)
  local x = 3
  table.insert(found, x)
  global = x
  table.insert(found, global)
  return found
end

function get_streams()
  local a = counted()
  local b = tested()
  local c = left()
  local d = scopes()
  table.insert(d, x)
  return passing(a, b, c, d)
end
