/* Reads a program file on standard input and prints the first schedule that fails, or none. */
#include "tarczolin.h"
#include <stdio.h>

int main(void) {
  uint8_t file[TARCZOLIN_FILE + 1], schedule[TARCZOLIN_SCHEDULE];
  size_t length = fread(file, 1, sizeof file, stdin);
  uint64_t word = tarczolin_violation(file, length, schedule, sizeof schedule);
  switch (TARCZOLIN_KIND(word)) {
    case TARCZOLIN_REFUSED:
      printf("refusal %u at line %u\n", TARCZOLIN_NUMBER(word), (unsigned)TARCZOLIN_VALUE(word));
      return 2;
    case TARCZOLIN_NONE:
      puts("none");
      return 0;
    default:
      for (uint64_t k = 0; k < TARCZOLIN_VALUE(word); k++) printf("%02x", schedule[k]);
      puts("");
      return 1;
  }
}
