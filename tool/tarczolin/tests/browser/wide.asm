thread producer_of_first
  ticket_number = fetch_add tail_of_the_queue 0x7fffffff
  store slot_of_the_queue_0 4000000000
  old_value = cas tail_of_the_queue 4000000001 4000000002
  seen = load slot_of_the_queue_0
thread producer_of_second
  ticket_number = fetch_add tail_of_the_queue 0x7fffffff
  store slot_of_the_queue_0 4000000000
  old_value = cas tail_of_the_queue 4000000001 4000000002
thread consumer_of_all
  filled = load tail_of_the_queue
  item = load slot_of_the_queue_0
  assert item == 4000000000
  item = load slot_of_the_queue_1
  item = load slot_of_the_queue_1
thread fourth
  store slot_of_the_queue_1 17
  store slot_of_the_queue_1 18
  store slot_of_the_queue_1 19
thread fifth
  a = load slot_of_the_queue_1
  b = load slot_of_the_queue_1
  c = load slot_of_the_queue_1
  a = fetch_add slot_of_the_queue_1 4000000000
thread sixth
  a = load slot_of_the_queue_1
  b = load slot_of_the_queue_1
  c = load slot_of_the_queue_1
  a = fetch_add slot_of_the_queue_1 4000000000
