# A queue of two slots and a sentinel, broken. Slot 0 is the sentinel's, so tail starts at 1. A producer takes a slot by
# advancing tail and fills it afterwards, so a consumer that sees tail advanced may find the slot still empty.

const ITEM = 7

init tail 1                  # behind the sentinel

thread first                 # a producer
  mine = fetch_add tail 1
  if mine != 1 skip 1
  store slot1 ITEM
  if mine != 2 skip 1
  store slot2 ITEM

thread second                # a producer, the same code
  mine = fetch_add tail 1
  if mine != 1 skip 1
  store slot1 ITEM
  if mine != 2 skip 1
  store slot2 ITEM

thread consumer              # takes as many as tail tells of
  filled = load tail
  if filled == 1 goto done
  item = load slot1
  assert item == ITEM
  if filled != 3 goto done
  item = load slot2
  assert item == ITEM
done:

alike first second

# a consumer that sees tail advanced finds the slot empty, and that is what the assertion is there for
expect violation
exists consumer.filled = 3 & consumer.item = 0
forall tail = 3 & slot1 = ITEM & slot2 = ITEM
