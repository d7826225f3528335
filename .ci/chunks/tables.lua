-- keys, lists, and what is removed from them
function lengths()
  local found = {}
  local list = { 1, 2, 3 }
  table.insert(found, #list)
  list[4] = 4
  table.insert(found, #list)
  list[4] = nil
  table.insert(found, #list)
  list[3] = nil
  table.insert(found, #list)
  table.insert(list, 9)
  table.insert(found, #list)
  table.insert(found, list[3])
  table.insert(found, #"four")
  table.insert(found, #"")
  table.insert(found, #{})
  table.insert(found, #{ x = 1, y = 2 })
  table.insert(found, #{ 5, x = 1, 6, ["y"] = 2, 7, })
  return found
end

function keys()
  local found = {}
  local t = { 10, x = 20, ["y z"] = 30, [true] = 40, [-1] = 50; 60 }
  table.insert(found, t[1])
  table.insert(found, t.x)
  table.insert(found, t["x"])
  table.insert(found, t["y z"])
  table.insert(found, t[true])
  table.insert(found, t[-1])
  table.insert(found, t[2])
  if t[false] == nil then table.insert(found, 70) end
  if t["1"] == nil then table.insert(found, 80) end
  if t[3 - 2] == 10 then table.insert(found, 90) end
  t.x = nil
  if t.x == nil then table.insert(found, 100) end
  t.inner = { list = { 1, 2 } }
  t.inner.list[3] = 7
  table.insert(found, #t.inner.list)
  table.insert(found, t.inner.list[3])
  local same = t.inner
  same.list = { 5 }
  table.insert(found, t.inner.list[1])
  if same == t.inner then table.insert(found, 110) end
  if {} ~= {} then table.insert(found, 120) end
  return found
end

function taken()
  local found = {}
  local list = { 3, 1, 4, 1, 5 }
  for i = 1, 5 do table.insert(found, table.remove(list)) end
  if table.remove(list) == nil then table.insert(found, #list) end
  return found
end

-- a list is sorted by insertion
function sorted()
  local list = { 31, -4, 15, 9, 2, 6, -53, 5, 8, 97, 9, 32 }
  for i = 2, #list do
    local value = list[i]
    local j = i - 1
    while j > 0 and list[j] > value do
      list[j + 1] = list[j]
      j = j - 1
    end
    list[j + 1] = value
  end
  return list
end

function get_streams()
  return passing(lengths(), keys(), taken(), sorted())
end
