# Message passing. The writer puts the data in place and then raises the flag; the reader asserts that the flag which it saw
# is at most the data which it saw behind it.

thread writer
  store data 1
  store flag 1

thread reader
  raised = load flag
  got = load data
  assert raised <= got

expect none
forbid reader.raised = 1 & reader.got = 0
exists reader.raised = 0 & reader.got = 1
