# The queue of two slots and a sentinel, repaired. Each slot has a flag that is set when the slot has been filled,
# and the consumer goes by the flags; tail starts behind the sentinel.

const ITEM = 7

init tail 1                  # behind the sentinel

thread first                 # a producer
  mine = fetch_add tail 1
  if mine != 1 skip 2
  store slot1 ITEM
  store full1 1
  if mine != 2 skip 2
  store slot2 ITEM
  store full2 1

thread second                # a producer, the same code
  mine = fetch_add tail 1
  if mine != 1 skip 2
  store slot1 ITEM
  store full1 1
  if mine != 2 skip 2
  store slot2 ITEM
  store full2 1

thread consumer              # takes a slot when its flag is set, in order
  flag = load full1
  if flag != 1 goto done
  item = load slot1
  assert item == ITEM
  flag = load full2
  if flag != 1 goto done
  item = load slot2
  assert item == ITEM
done:

alike first second

expect none
forbid consumer.flag = 1 & consumer.item = 0
exists consumer.flag = 1 & consumer.item = ITEM
