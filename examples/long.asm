# Twelve stores beside twelve loads: a long list, 2,704,156 executions.
thread writer
  store x 1
  store x 2
  store x 3
  store x 4
  store x 5
  store x 6
  store x 7
  store x 8
  store x 9
  store x 10
  store x 11
  store x 12
thread reader
  seen = load x
  seen = load x
  seen = load x
  seen = load x
  seen = load x
  seen = load x
  seen = load x
  seen = load x
  seen = load x
  seen = load x
  seen = load x
  seen = load x
