# Makes examples/matte.pgm: a figure with soft edges that holds a rail, 200 by 200, border 0.
#   LC_ALL=C awk -f examples/matte.awk > examples/matte.pgm

# From 0 to 1 without a kink.
function smooth(t) {
  t = t < 0 ? 0 : t > 1 ? 1 : t
  return t * t * (3 - 2 * t)
}

# How much a soft ellipse covers a sample: all of it within, nothing from `edge` samples outside on.
function ellipse(x, y, cx, cy, across, down, edge,    d) {
  d = sqrt(((x - cx) / across) ^ 2 + ((y - cy) / down) ^ 2)
  return smooth((1 - d) * (across < down ? across : down) / edge + 0.5)
}

# A soft stroke from one point to another, so many samples wide.
function stroke(x, y, ax, ay, bx, by, width, edge,    t, dx, dy) {
  t = ((x - ax) * (bx - ax) + (y - ay) * (by - ay)) / ((bx - ax) ^ 2 + (by - ay) ^ 2)
  t = t < 0 ? 0 : t > 1 ? 1 : t
  dx = x - ax - t * (bx - ax)
  dy = y - ay - t * (by - ay)
  return smooth((width / 2 - sqrt(dx * dx + dy * dy)) / edge + 0.5)
}

function cover(v) { if (v > white) white = v }

function sample(x, y) {
  if (x == 0 || y == 0 || x == 199 || y == 199) return 0
  white = 0
  cover(ellipse(x, y, 92, 52, 25, 31, 5))                # head
  cover(ellipse(x, y, 92, 138, 40, 54, 7))               # body
  cover(stroke(x, y, 92, 76, 92, 96, 20, 5))             # neck
  cover(stroke(x, y, 118, 108, 152, 132, 15, 5))         # upper arm
  cover(stroke(x, y, 152, 132, 128, 164, 14, 5))         # lower arm, back to the hip
  cover(stroke(x, y, 64, 110, 36, 84, 14, 5))            # the other arm
  cover(0.55 * stroke(x, y, 26, 20, 26, 184, 7, 4))      # the rail, grey, as it is out of focus
  cover(ellipse(x, y, 31, 79, 8, 8, 4))                  # the hand on it
  cover(0.8 * ellipse(x, y, 166, 42, 17, 17, 22))        # a lamp, very soft
  return int(255 * white + 0.5)
}

BEGIN {
  printf "P5\n200 200\n255\n"
  for (y = 0; y < 200; y++) for (x = 0; x < 200; x++) printf "%c", sample(x, y)
}
