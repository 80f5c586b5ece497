/* change_events SEED EACH FILE..: feeds each trace EACH times with one byte, the address or the whole of an event changed, and
   opens handles of many headers and limits of lines. An event is out of range exactly where the table below says so of the
   fields that its kind has, the first status but fine is the status for good, and no handle stays open. */
#include "trace_lines.h"

static long wrong, changed, statuses[7];

static void want(int holds, const char *what) {
  if (holds) return;
  if (wrong++ < 10) printf("wrong: %s\n", what);
}

static int in_range(int version, const ace_event *event) {
  int port = version != 1 || event->port < 16;
  int flag = event->flag < 2, state = event->state < 5, low = event->addr >> 32 == 0;
  int attributes = event->domain < 4 && event->bar < 4;
  switch (event->kind) {
    case ACE_AR: return port && attributes && flag && event->snoop < 16 && (low || uses_a_line(event));
    case ACE_AW: return port && attributes && event->snoop < 8 && (low || uses_a_line(event));
    case ACE_R: return port && flag && event->resp < 16;
    case ACE_B: return port && event->resp < 4;
    case ACE_RK: case ACE_WK: case ACE_S: return port && state;
    case ACE_W: case ACE_CD: case ACE_D: return port && flag;
    case ACE_AC: return port && event->snoop < 16 && (low || uses_a_line(event));
    case ACE_CR: return port && state && event->resp < 32;
    case ACE_G: case ACE_M: return port && flag;
    case ACE_L: return port && flag && event->index < 4;
    case ACE_OP: return port && event->index < 3;
    case ACE_MEM: return version != 1;
    default: return 0;
  }
}

static void change(ace_event *event) {
  uint8_t *bytes = (uint8_t *)event;
  if (rand() % 4 == 0)
    for (size_t at = 0; at < sizeof *event; at++) bytes[at] = (uint8_t)rand();
  else if (rand() % 4 == 0)
    event->addr ^= (uint64_t)rand() << rand() % 44;
  else
    bytes[rand() % 10] = (uint8_t)(rand() % 3 ? rand() % 20 : rand());
}

static void feed_changed(const struct trace *trace) {
  size_t place = (size_t)rand() % trace->count, at = 0;
  ace_event kept = trace->events[place];
  change(&trace->events[place]);
  ace_checker checker = ACE_CLOSED;
  uint8_t status = ace_open(&checker, (uint8_t)trace->version, (uint8_t)trace->ports, trace->ace, 4096);
  while (at < trace->count && status == ACE_FINE) {
    int fits = in_range(trace->version, &trace->events[at]);
    status = ace_feed(&checker, &trace->events[at++]);
    want(fits == (status != ACE_OUT_OF_RANGE), "out of range where a field is, and only there");
  }
  ace_answer answer = ace_verdict(&checker);
  want(answer.status == status && answer.event == at, "the verdict is of the last event");
  for (int more = 0; more < 3 && status != ACE_FINE; more++) {
    const ace_event *other = &trace->events[(size_t)rand() % trace->count];
    want(ace_feed(&checker, other) == status, "a status is for good");
    want(ace_feed_many(&checker, other, 1) == 0, "a status is for good, also of many");
  }
  ace_answer again = ace_verdict(&checker);
  want(again.event == answer.event && again.rule == answer.rule, "a verdict is for good");
  ace_close(&checker);
  want(ace_feed(&checker, &kept) == ACE_NOT_OPEN, "what is closed isn't open");
  trace->events[place] = kept;
  changed++;
  statuses[status < 7 ? status : 6]++;
}

static long open_headers(void) {
  long count = 0;
  for (int version = 0; version < 4; version++)
    for (int ports = 0; ports < 40; ports++)
      for (int turn = 0; turn < 200; turn++, count++) {
        uint32_t ace = (uint32_t)rand() * 3u ^ (uint32_t)rand() << 16;
        if (turn % 4 && ports < 32) ace &= ((uint32_t)1 << ports) - 1;
        int aces = __builtin_popcount(ace), most = version == 1 ? 8 : 16;
        int right = (version == 1 || version == 2) && ports >= 1 && ports <= 32 && (ports == 32 || ace >> ports == 0) &&
                    aces <= most && ports - aces <= most;
        ace_checker checker = ACE_CLOSED;
        uint8_t status = ace_open(&checker, (uint8_t)version, (uint8_t)ports, ace, (size_t)rand() % 3);
        want(status == (right ? ACE_FINE : ACE_OUT_OF_RANGE), "a header is opened exactly where it is one");
        ace_close(&checker);
      }
  return count;
}

/* Reads of one line each, with addresses far apart and all identifiers: the first that is one line too many. */
static void limit_lines(size_t lines) {
  ace_checker checker = ACE_CLOSED;
  want(ace_open(&checker, 2, 1, 1, lines) == ACE_FINE, "a handle is opened with any limit");
  for (size_t at = 0; at < 256; at++) {
    ace_event read = {.kind = ACE_AR, .id = (uint8_t)at, .addr = (uint64_t)at << 56, .snoop = 7, .domain = 1};
    uint8_t status = ace_feed(&checker, &read);
    want(status == (lines && at >= lines ? ACE_TOO_MANY_LINES : ACE_FINE), "a line too many is one, and only that");
  }
  want(ace_verdict(&checker).event == (lines && lines < 256 ? lines + 1 : 256), "the line too many ends the trace");
  ace_close(&checker);
}

int main(int count, char **words) {
  if (count < 4) return 2;
  srand((unsigned)atoi(words[1]));
  for (int at = 3; at < count; at++) {
    struct trace trace = read_trace(words[at]);
    ace_checker checker = ACE_CLOSED;
    int opens = trace.version && ace_open(&checker, (uint8_t)trace.version, (uint8_t)trace.ports, trace.ace, 4096) == ACE_FINE;
    ace_close(&checker);
    for (int turn = 0; opens && trace.count && turn < atoi(words[2]); turn++) feed_changed(&trace);
    free(trace.events);
  }
  long headers = open_headers();
  for (size_t lines = 0; lines < 300; lines += 7) limit_lines(lines);
  printf("%ld changed traces (%ld out of range, %ld refused, %ld fine) and %ld headers: %ld wrong\n", changed,
         statuses[ACE_OUT_OF_RANGE], statuses[ACE_REFUSED], statuses[ACE_FINE], headers, wrong);
  return wrong != 0;
}
