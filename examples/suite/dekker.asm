# Two threads that may not be inside at the same time: each raises its flag and enters if the other's is down. On x86 both
# flags can be pending while both are read, so both enter.

thread left
  store wants_left 1
  other = load wants_right
  if other != 0 goto out
  before = fetch_add inside 1
  assert before == 0
out:

thread right
  store wants_right 1
  other = load wants_left
  if other != 0 goto out
  before = fetch_add inside 1
  assert before == 0
out:

expect none under sc
expect violation under tso
forbid inside = 2 under sc
exists inside = 2 under tso
