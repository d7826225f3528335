-- which sign a value has, told on one of three outputs
function get_name() return "SIGNS" end

function get_description()
  return {
    "READ A VALUE FROM IN",
    "WRITE 1 TO OUT.P IF IT IS ABOVE 0, ELSE 0",
    "WRITE 1 TO OUT.Z IF IT IS 0, ELSE 0",
    "WRITE 1 TO OUT.N IF IT IS BELOW 0, ELSE 0",
  }
end

-- a truth value as a number
function one_if(truth)
  if truth then return 1 end
  return 0
end

function get_streams()
  local values = {}
  local above = {}
  local zero = {}
  local below = {}
  for i = 1, 30 do
    local value = math.random(-2, 2)
    table.insert(values, value)
    table.insert(above, one_if(value > 0))
    table.insert(zero, one_if(value == 0))
    table.insert(below, one_if(value < 0))
  end
  return {
    { STREAM_INPUT, "IN", 1, values },
    { STREAM_OUTPUT, "OUT.P", 0, above },
    { STREAM_OUTPUT, "OUT.Z", 1, zero },
    { STREAM_OUTPUT, "OUT.N", 2, below },
  }
end

-- the fourth column is out of order, but for its last tile
function get_layout()
  return {
    TILE_COMPUTE, TILE_COMPUTE, TILE_COMPUTE, TILE_DAMAGED,
    TILE_COMPUTE, TILE_COMPUTE, TILE_COMPUTE, TILE_DAMAGED,
    TILE_COMPUTE, TILE_COMPUTE, TILE_COMPUTE, TILE_COMPUTE,
  }
end
