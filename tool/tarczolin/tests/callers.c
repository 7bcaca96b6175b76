/* The layout of a caller's record and of its marks, and the seven calls on a list of four, as a C program has them: prints what it finds. */
#include "tarczolin.h"
#include <stddef.h>
#include <stdio.h>
#include <string.h>

#define FIELD(name) printf("%s %zu %zu\n", #name, offsetof(struct tarczolin_caller, name), sizeof callers[0].name)
#define MARK(name) printf("mark %s %zu %zu\n", #name, offsetof(struct tarczolin_mark, name), sizeof callers[0].marks[0].name)

static struct tarczolin_caller callers[4], before[4];
static uint64_t last = 3;

/* a word, the last caller, and which records have changed since the last one */
static void tell(const char *call, uint64_t word) {
  printf("%s %016llx last %llu changed", call, (unsigned long long)word, (unsigned long long)last);
  for (int k = 0; k < 4; k++)
    if (memcmp(&callers[k], &before[k], sizeof callers[k]) != 0) printf(" %d", k);
  puts("");
  memcpy(before, callers, sizeof callers);
}

int main(void) {
  static const uint8_t file[] = "01\n110000\n01\n10000000000001\n";
  uint8_t out[TARCZOLIN_SCHEDULE];
  size_t length = sizeof file - 1;
  printf("size %zu\n", sizeof callers[0]);
  FIELD(file);
  FIELD(length);
  FIELD(count);
  FIELD(place);
  FIELD(asking);
  FIELD(steps);
  FIELD(schedule);
  FIELD(handed);
  FIELD(size);
  FIELD(newest);
  FIELD(marks);
  FIELD(padding);
  printf("mark %zu, %d of them\n", sizeof callers[0].marks[0], TARCZOLIN_MARKS);
  MARK(name);
  MARK(length);
  MARK(place);
  MARK(steps);
  MARK(schedule);
  tell("open", tarczolin_open(callers, 4, &last, 2, file, length));
  printf("%zu %d %d\n", callers[2].length, callers[2].place, memcmp(callers[2].file, file, length));
  tell("ask", tarczolin_ask(callers, 4, &last, 2));
  printf("asking %d\n", callers[2].asking);
  uint64_t word = tarczolin_serve(callers, 4, &last, out, sizeof out);
  tell("serve", word);
  printf("%u %u %u, %d %d %d, count %d\n", TARCZOLIN_KIND(word), TARCZOLIN_CALLER(word), (unsigned)TARCZOLIN_STEPS(word),
         callers[2].asking, callers[2].steps, memcmp(callers[2].schedule, out, 2), (int)callers[2].count);
  tell("serve", tarczolin_serve(callers, 4, &last, out, sizeof out));
  tell("ask", tarczolin_ask(callers, 4, &last, 4));
  tell("ask", tarczolin_ask(callers, 3, &last, 2));
  tell("set", tarczolin_set(callers, 4, &last, 2, (const uint8_t *)"here", 4));
  struct tarczolin_mark *mark = &callers[2].marks[0];
  printf("%d %d %d, %d %d\n", mark->length, mark->place, mark->steps, memcmp(mark->name, "here", 4), memcmp(mark->schedule, out, 2));
  tell("set", tarczolin_set(callers, 4, &last, 2, (const uint8_t *)"nine char", 9));
  tell("return", tarczolin_return(callers, 4, &last, 2, (const uint8_t *)"there", 5));
  callers[2].place = 1;
  tell("place", 0);
  tell("return", tarczolin_return(callers, 4, &last, 2, (const uint8_t *)"here", 4));
  printf("%d %d\n", callers[2].place, callers[2].steps);
  tell("forget", tarczolin_forget(callers, 4, &last, 2, (const uint8_t *)"here", 4));
  tell("forget", tarczolin_forget(callers, 4, &last, 2, (const uint8_t *)"here", 4));
  for (uint8_t k = 0; k < TARCZOLIN_MARKS; k++) tarczolin_set(callers, 4, &last, 2, &k, 1);
  tell("eight", 0);
  tell("set", tarczolin_set(callers, 4, &last, 2, (const uint8_t *)"here", 4));
  tell("close", tarczolin_close(callers, 4, &last, 2));
  return 0;
}
