-- each value without the one before it
function get_name() return "DIFFERENCES" end

function get_description()
  return { "READ A VALUE FROM IN", "WRITE IT TO OUT WITHOUT THE VALUE BEFORE IT", "THE FIRST VALUE IS WRITTEN AS IT IS" }
end

function get_streams()
  local values = {}
  local differences = {}
  local before = 0
  for i = 1, 39 do
    values[i] = math.random(10, 99)
    differences[i] = values[i] - before
    before = values[i]
  end
  return {
    { STREAM_INPUT, "IN", 1, values },
    { STREAM_OUTPUT, "OUT", 1, differences },
  }
end

function get_layout()
  return {
    TILE_COMPUTE, TILE_COMPUTE, TILE_COMPUTE, TILE_COMPUTE,
    TILE_COMPUTE, TILE_COMPUTE, TILE_COMPUTE, TILE_COMPUTE,
    TILE_COMPUTE, TILE_COMPUTE, TILE_COMPUTE, TILE_COMPUTE,
  }
end
