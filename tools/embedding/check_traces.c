/* check_traces FILE..: the verdict on each trace, by ace_feed and again by ace_feed_many in pieces; and whether it is the same
   where each line has an address of 64 bits, and each identifier is another of 8 bits.
   check_traces --time N FILE: what an event takes, fed one by one and at once, the best of N times. */
#include "trace_lines.h"
#include <time.h>

static ace_answer feed_each(const struct trace *trace) {
  ace_checker checker = ACE_CLOSED;
  uint8_t status = ace_open(&checker, (uint8_t)trace->version, (uint8_t)trace->ports, trace->ace, 4096);
  if (status != ACE_FINE) return (ace_answer){0, status, 0};
  for (size_t at = 0; at < trace->count && status == ACE_FINE; at++) {
    status = ace_feed(&checker, &trace->events[at]);
    if (ace_verdict(&checker).status != status) printf("the verdict isn't the status: ");
  }
  ace_answer answer = ace_verdict(&checker);
  ace_close(&checker);
  ace_close(&checker);
  ace_event event = {0};
  if (ace_feed(&checker, &event) != ACE_NOT_OPEN || ace_verdict(&checker).status != ACE_NOT_OPEN ||
      ace_feed_many(&checker, &event, 1) != 0)
    printf("closed, and not so: ");
  return answer;
}

static ace_answer feed_pieces(const struct trace *trace, size_t piece) {
  ace_checker checker = ACE_CLOSED;
  uint8_t status = ace_open(&checker, (uint8_t)trace->version, (uint8_t)trace->ports, trace->ace, 4096);
  if (status != ACE_FINE) return (ace_answer){0, status, 0};
  for (size_t at = 0; at < trace->count; at += piece) {
    size_t count = trace->count - at < piece ? trace->count - at : piece;
    size_t fed = ace_feed_many(&checker, &trace->events[at], count);
    if (fed == count) continue;
    if (ace_verdict(&checker).event != at + fed + 1) printf("fed, and not so many: ");
    if (ace_feed_many(&checker, &trace->events[at], count) != 0) printf("ended, and goes on: ");
    break;
  }
  ace_answer answer = ace_verdict(&checker);
  ace_close(&checker);
  return answer;
}

/* The same trace with other lines, of 64-bit addresses, and other identifiers, each by a one-to-one map. */
static struct trace widened(const struct trace *trace) {
  struct trace wide = *trace;
  wide.events = (ace_event *)malloc((trace->count + 1) * sizeof *wide.events);
  if (!wide.events) abort();
  for (size_t at = 0; at < trace->count; at++) {
    ace_event *event = &wide.events[at];
    *event = trace->events[at];
    event->id = (uint8_t)(event->id * 31 + 200);
    if (uses_a_line(event)) event->addr = ((event->addr / 64 * 0x9e3779b97f4a7c15u + 12345) << 6) | event->addr % 64;
  }
  return wide;
}

static int is_same(ace_answer one, ace_answer other) {
  return one.event == other.event && one.status == other.status && one.rule == other.rule;
}

static double seconds(void) {
  struct timespec now;
  clock_gettime(CLOCK_PROCESS_CPUTIME_ID, &now);
  return (double)now.tv_sec + (double)now.tv_nsec / 1e9;
}

static void tell_times(const char *name, int times) {
  struct trace trace = read_trace(name);
  double one_by_one = 1e9, at_once = 1e9;
  for (int turn = 0; turn < times; turn++) {
    ace_checker checker = ACE_CLOSED;
    double began = seconds();
    ace_open(&checker, (uint8_t)trace.version, (uint8_t)trace.ports, trace.ace, 4096);
    for (size_t at = 0; at < trace.count && ace_feed(&checker, &trace.events[at]) == ACE_FINE; at++);
    double took = seconds() - began;
    if (took < one_by_one) one_by_one = took;
    began = seconds();
    ace_open(&checker, (uint8_t)trace.version, (uint8_t)trace.ports, trace.ace, 4096);
    ace_feed_many(&checker, trace.events, trace.count);
    took = seconds() - began;
    if (took < at_once) at_once = took;
    ace_close(&checker);
  }
  double count = (double)trace.count;
  printf("%zu events: %.1f ns an event one by one, %.1f at once\n", trace.count, one_by_one / count * 1e9,
         at_once / count * 1e9);
  free(trace.events);
}

int main(int count, char **words) {
  if (count == 4 && !strcmp(words[1], "--time")) {
    tell_times(words[3], atoi(words[2]));
    return 0;
  }
  for (int at = 1; at < count; at++) {
    struct trace trace = read_trace(words[at]);
    if (!trace.version) {
      printf("no header\n");
      continue;
    }
    ace_answer answer = feed_each(&trace), again = feed_pieces(&trace, 7), whole = feed_pieces(&trace, trace.count + 1);
    if (!is_same(answer, again) || !is_same(answer, whole)) printf("in pieces it is another: ");
    struct trace wide = widened(&trace);
    if (!is_same(answer, feed_each(&wide))) printf("with addresses of 64 bits it is another: ");
    free(wide.events);
    if (answer.status == ACE_OUT_OF_RANGE && answer.event == 0) printf("no header\n");
    else say_verdict(&trace, answer);
    free(trace.events);
  }
  return 0;
}
