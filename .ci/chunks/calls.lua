-- calls, operators that decide, and texts
count = 0

-- says that it was evaluated
function seen(value)
  count = count + 1
  return value
end

function fibonacci(n)
  if n < 2 then return n end
  return fibonacci(n - 1) + fibonacci(n - 2)
end

function is_even(n)
  if n == 0 then return true end
  return is_odd(n - 1)
end

function is_odd(n)
  if n == 0 then return false end
  return is_even(n - 1)
end

function number_of(value)
  if value == nil then return -1 end
  if value == true then return 1 end
  if value == false then return 0 end
  return value
end

function nothing() end
function second(a, b) return b end
function push(list, value) table.insert(list, number_of(value)) end

function called()
  local found = {}
  for i = 0, 12 do push(found, fibonacci(i)) end
  push(found, is_even(10))
  push(found, is_even(7))
  push(found, second(1, 2))
  push(found, second(1))
  push(found, second(1, 2, 3))
  push(found, nothing())
  push(found, global_that_is_not_there)
  return found
end

function decided()
  local found = {}
  push(found, nil and seen(1))
  push(found, false and seen(1))
  push(found, 0 and seen(5))
  push(found, nil or seen(6))
  push(found, 7 or seen(1))
  push(found, nil or false)
  push(found, false or nil)
  push(found, not nil)
  push(found, not 0)
  push(found, not not 1)
  push(found, 1 == 1 and 2 == 2)
  push(found, 1 < 2 == true)
  push(found, not 1 == 2)
  push(found, false == nil)
  push(found, 1 == "1")
  push(found, 1 and 2 or 3)
  push(found, nil and 2 or 3)
  push(found, count)
  return found
end

function texts()
  local found = {}
  push(found, "a" .. 1 == "a1")
  push(found, 1 .. 2 == "12")
  push(found, -1 .. "" == "-1")
  push(found, "a" .. "b" .. "c" == "abc")
  push(found, "a" < "b")
  push(found, "B" < "a")
  push(found, "a" < "ab")
  push(found, "ab" <= "ab")
  push(found, "" < "a")
  push(found, "b" > "a" and "b" >= "b")
  push(found, #("tab\tline\nquote\'\"back\\"))
  push(found, "\n" == '\n')
  push(found, 1 + 2 .. "" == "3")
  push(found, 2 * 3 .. 4 == "64")
  return found
end

-- arguments and parts are evaluated from left to right
trace = 0
function mark(digit)
  trace = (trace * 3 + digit) % 900
  return digit
end

function orders()
  local found = {}
  local t = {}
  second(mark(1), mark(2))
  push(found, trace)
  local sum = mark(1) + mark(2) * mark(0)
  push(found, trace)
  t = { mark(2), x = mark(1), [mark(0)] = mark(2) }
  push(found, trace)
  push(found, sum)
  push(found, t[0])
  local big = mark(2) .. mark(1) .. mark(0)
  push(found, trace)
  push(found, big == "210")
  return found
end

function get_streams()
  return passing(called(), decided(), texts(), orders())
end
