-- draws a bar of each length, one below the other
WIDTH = 30
HEIGHT = 18
COLOUR = 3

function get_name() return "BARS" end

function get_description()
  return { "READ A LENGTH FROM IN", "DRAW A BAR OF THAT LENGTH FROM THE LEFT, IN COLOUR 3", "BEGIN WITH THE TOP ROW" }
end

function get_streams()
  local lengths = {}
  local picture = {}
  for row = 1, HEIGHT do
    local length = math.random(0, WIDTH)
    lengths[row] = length
    for column = 1, WIDTH do
      if column <= length then
        table.insert(picture, COLOUR)
      else
        table.insert(picture, 0)
      end
    end
  end
  return {
    { STREAM_INPUT, "IN", 1, lengths },
    { STREAM_IMAGE, "BARS", 1, picture },
  }
end

function get_layout()
  local tiles = {}
  for i = 1, 12 do tiles[i] = TILE_COMPUTE end
  tiles[4] = TILE_MEMORY
  tiles[9] = TILE_MEMORY
  return tiles
end
