/* four_threads FILE: four threads check the trace, each with a handle of its own, and a fifth handle goes from one to the
   next with a quarter of the events each. Whether all come to the same. */
#include "trace_lines.h"
#include <pthread.h>

static struct trace trace;
static ace_answer answers[4];
static ace_checker handed = ACE_CLOSED;

static void *check_all(void *place) {
  ace_checker checker = ACE_CLOSED;
  ace_open(&checker, (uint8_t)trace.version, (uint8_t)trace.ports, trace.ace, 4096);
  for (size_t at = 0; at < trace.count && ace_feed(&checker, &trace.events[at]) == ACE_FINE; at++);
  *(ace_answer *)place = ace_verdict(&checker);
  ace_close(&checker);
  return NULL;
}

static void *check_quarter(void *place) {
  size_t first = trace.count * *(size_t *)place / 4, next = trace.count * (*(size_t *)place + 1) / 4;
  ace_feed_many(&handed, &trace.events[first], next - first);
  return NULL;
}

int main(int count, char **words) {
  if (count != 2) return 2;
  trace = read_trace(words[1]);
  pthread_t threads[4], other;
  for (int at = 0; at < 4; at++)
    if (pthread_create(&threads[at], NULL, check_all, &answers[at])) return 2;
  ace_open(&handed, (uint8_t)trace.version, (uint8_t)trace.ports, trace.ace, 4096);
  for (size_t at = 0; at < 4; at++) {
    if (pthread_create(&other, NULL, check_quarter, &at)) return 2;
    pthread_join(other, NULL);
  }
  ace_answer all = ace_verdict(&handed);
  ace_close(&handed);
  int same = all.status == ACE_FINE && all.event == trace.count;
  for (int at = 0; at < 4; at++) {
    pthread_join(threads[at], NULL);
    same = same && answers[at].status == ACE_FINE && answers[at].event == trace.count;
  }
  printf("four threads: %s\n", same ? "the same" : "differ");
  free(trace.events);
  return !same;
}
