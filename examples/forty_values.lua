-- refused: a stream has at most 39 values
function get_name() return "FORTY" end
function get_description() return { "PASS EACH VALUE ON" } end

function get_streams()
  local values = {}
  for i = 1, 40 do values[i] = i end
  return {
    { STREAM_OUTPUT, "OUT", 1, { 1, 2, 3 } },
    { STREAM_INPUT, "IN", 1, values },
  }
end

function get_layout()
  local tiles = {}
  for i = 1, 12 do tiles[i] = TILE_COMPUTE end
  return tiles
end
