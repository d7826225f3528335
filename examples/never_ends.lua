-- refused: a call of get_streams doesn't end within its units
function get_name() return "NEVER" end
function get_description() return {} end

function get_streams()
  local value = 1
  while value ~= 0 do value = value * 3 % 1000 end
  return {}
end

function get_layout() return {} end
