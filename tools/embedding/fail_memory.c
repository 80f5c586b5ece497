/* fail_memory FILE: the Nth allocation fails, for N from 1 on until none does. Then the status is ACE_NO_MEMORY for good, or the
   verdict is as it is without; and whatever is allocated is freed. Link with --wrap of malloc, realloc and free. */
#include "trace_lines.h"

void *__real_malloc(size_t size);
void *__real_realloc(void *block, size_t size);
void __real_free(void *block);

static long left = -1, live; /* how many allocations go on (any number where it is below 0), and how many blocks there are */

static int goes_on(void) {
  if (left == 0) return 0;
  if (left > 0) left--;
  return 1;
}

void *__wrap_malloc(size_t size) {
  void *block = goes_on() ? __real_malloc(size) : NULL;
  live += block != NULL;
  return block;
}

void *__wrap_realloc(void *old, size_t size) {
  void *block = goes_on() ? __real_realloc(old, size) : NULL;
  live += block && !old;
  return block;
}

void __wrap_free(void *block) {
  live -= block != NULL;
  __real_free(block);
}

int main(int count, char **words) {
  if (count != 2) return 2;
  struct trace trace = read_trace(words[1]);
  ace_answer whole = {0, 0, 0};
  long failing = 0, wrong = 0;
  for (long turn = -1;; turn++) {
    long before = live;
    left = turn;
    ace_checker checker = ACE_CLOSED;
    uint8_t opened = ace_open(&checker, (uint8_t)trace.version, (uint8_t)trace.ports, trace.ace, 4096), status = opened;
    for (size_t at = 0; at < trace.count && status == ACE_FINE; at++) status = ace_feed(&checker, &trace.events[at]);
    int failed = turn >= 0 && left == 0;
    left = -1;
    ace_answer answer = ace_verdict(&checker);
    if (turn < 0) whole = answer;
    else if (opened == ACE_NO_MEMORY) wrong += answer.status != ACE_NOT_OPEN;
    else if (status == ACE_NO_MEMORY)
      wrong += answer.status != status || answer.event < 1 || answer.event > trace.count ||
               ace_feed(&checker, trace.events) != status;
    else wrong += answer.status != whole.status || answer.event != whole.event || answer.rule != whole.rule;
    failing += status == ACE_NO_MEMORY;
    ace_close(&checker);
    wrong += live != before;
    if (turn >= 0 && !failed) break;
  }
  printf("%ld failing allocations: %ld wrong\n", failing, wrong);
  free(trace.events);
  return wrong != 0 || failing == 0 || whole.status != ACE_FINE;
}
