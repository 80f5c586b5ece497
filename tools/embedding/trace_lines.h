/* Reads the text of a trace (docs/TRACE.md) into events, for the checks of this folder. Strict but for
   ranges: whether a number is in range is the library's to say. */
#ifndef TRACE_LINES_H
#define TRACE_LINES_H
#include "ace.h"
#include <stdio.h>
#include <stdlib.h>
#include <string.h>
#ifdef __cplusplus
extern "C" {
#endif

struct trace {
  int version, ports; /* version 0: these are no header lines */
  uint32_t ace;
  ace_event *events;
  size_t count;
  size_t bad_line; /* the line that is no event, or 0 */
};

static inline int read_hex(const char *text, int digits, uint64_t *number) {
  *number = 0;
  for (int at = 0; at < digits; at++) {
    char c = text[at];
    if (c >= '0' && c <= '9') *number = *number << 4 | (uint64_t)(c - '0');
    else if (c >= 'a' && c <= 'f') *number = *number << 4 | (uint64_t)(c - 'a' + 10);
    else return 0;
  }
  return text[digits] == 0;
}

static inline int read_bytes(const char *text, size_t count, uint8_t *bytes) {
  if (strlen(text) != 2 * count) return 0;
  for (size_t at = 0; at < count; at++) {
    char digits[3] = {text[2 * at], text[2 * at + 1], 0};
    uint64_t number;
    if (!read_hex(digits, 2, &number)) return 0;
    bytes[at] = (uint8_t)number;
  }
  return 1;
}

static inline int read_word(const char *text, const char *const *words, int count, uint8_t *code) {
  for (int at = 0; at < count; at++)
    if (!strcmp(text, words[at])) {
      *code = (uint8_t)at;
      return 1;
    }
  return 0;
}

/* One field of the event, by the letter of its sort in the table below. */
static inline int read_field(char sort, const char *text, int version, ace_event *event) {
  static const char *const states[] = {"I", "UC", "UD", "SC", "SD"};
  static const char *const channels[] = {"R", "W"};
  static const char *const outcomes[] = {"ok", "skip", "fail"};
  uint64_t number = 0;
  int fits;
  switch (sort) {
    case 't': return read_word(text, states, 5, &event->state);
    case 'c': return read_word(text, channels, 2, &event->flag);
    case 'o': return read_word(text, outcomes, 3, &event->index);
    case 'w': return read_bytes(text, 16, event->data);
    case 'l': return read_bytes(text, 64, event->data);
    case 'a': fits = read_hex(text, 8, &number); event->addr = (uint32_t)number; return fits;
    case 'n': fits = read_hex(text, 4, &number); event->number = (uint16_t)number; return fits;
    case 'S': return read_hex(text, 16, &event->strobe);
    case 'p': fits = read_hex(text, version == 1 ? 1 : 2, &number); event->port = (uint8_t)number; return fits;
    case 'R': fits = read_hex(text, 2, &number); event->resp = (uint8_t)number; return fits;
  }
  if (!read_hex(text, 1, &number)) return 0;
  switch (sort) {
    case 'i': event->id = (uint8_t)number; return 1;
    case 's': event->snoop = (uint8_t)number; return 1;
    case 'd': event->domain = (uint8_t)number; return 1;
    case 'b': event->bar = (uint8_t)number; return 1;
    case 'f': event->flag = (uint8_t)number; return 1;
    case 'r': event->resp = (uint8_t)number; return 1;
    case 'x': event->index = (uint8_t)number; return 1;
  }
  return 0;
}

/* One line without its line feed, which is cut into its fields. */
static inline int read_event(char *line, int version, ace_event *event) {
  static const char *const kinds[] = {"AR", "R", "RK", "AW", "W", "B", "WK", "AC", "CR",
                                      "CD", "G", "M", "S", "L", "D", "OP", "MEM"};
  static const char *const sorts[] = {"piasdbf", "pirfw", "pt", "piasdb", "pnfw", "pir", "pt", "pas", "pRt",
                                      "pfw", "pci", "pcil", "pat", "paxfw", "paSfl", "pno", "al"};
  memset(event, 0, sizeof *event);
  char *rest = strchr(line, ' ');
  if (rest) *rest++ = 0;
  if (!read_word(line, kinds, version == 1 ? 16 : 17, &event->kind)) return 0;
  for (const char *sort = sorts[event->kind]; *sort; sort++) {
    char *text = rest;
    if (!text) return 0;
    rest = strchr(text, ' ');
    if (rest) *rest++ = 0;
    if (!read_field(*sort, text, version, event)) return 0;
  }
  return !rest;
}

static inline void read_header(const char *first, const char *second, struct trace *trace) {
  trace->version = !strcmp(first, "ACE 1") ? 1 : !strcmp(first, "ACE 2") ? 2 : 0;
  if (strncmp(second, "PORTS ", 6)) trace->version = 0;
  for (const char *at = second + 6; trace->version && *at; at++) {
    if (trace->ports == 32 || (*at != 'A' && *at != 'L')) {
      trace->version = 0;
      break;
    }
    if (*at == 'A') trace->ace |= (uint32_t)1 << trace->ports;
    trace->ports++;
  }
}

/* The next line without its line feed. 0 where there is none, -1 where it is too long or has no line feed. */
static inline int next_line(FILE *file, char *line, int size) {
  if (!fgets(line, size, file)) return 0;
  size_t length = strlen(line);
  if (length == 0 || line[length - 1] != '\n') return -1;
  line[length - 1] = 0;
  return 1;
}

static inline struct trace read_trace(const char *name) {
  struct trace trace = {0, 0, 0, NULL, 0, 0};
  char line[257], second[257];
  size_t room = 0;
  FILE *file = fopen(name, "rb");
  if (!file) return trace;
  if (next_line(file, line, sizeof line) == 1 && next_line(file, second, sizeof second) == 1)
    read_header(line, second, &trace);
  for (int found; trace.version && (found = next_line(file, line, sizeof line));) {
    if (trace.count == room) {
      room = room ? 2 * room : 1024;
      trace.events = (ace_event *)realloc(trace.events, room * sizeof *trace.events);
      if (!trace.events) abort();
    }
    if (found < 0 || !read_event(line, trace.version, &trace.events[trace.count])) {
      trace.bad_line = trace.count + 3;
      break;
    }
    trace.count++;
  }
  fclose(file);
  return trace;
}

/* Whether the address of the event is that of a line: by the codes of an AR, an AW and an AC (tables C3-7, C3-9 and
   C3-19 of the standard), and for S, L, D and MEM. */
static inline int uses_a_line(const ace_event *event) {
  int normal = !(event->bar & 1), shared = event->domain == 1 || event->domain == 2;
  unsigned snoop = event->snoop;
  switch (event->kind) {
    case ACE_AR: return normal && snoop < 16 && (snoop == 0 || (shared && (0x3b8e >> snoop & 1)));
    case ACE_AW: return normal && (snoop == 0 || (shared && snoop < 6));
    case ACE_AC: return snoop < 16 && (0x238f >> snoop & 1);
    case ACE_S: case ACE_L: case ACE_D: case ACE_MEM: return 1;
    default: return 0;
  }
}

/* What `ace check` says of such a trace, but for the reason why a line is malformed. */
static inline void say_verdict(const struct trace *trace, ace_answer answer) {
  unsigned long long event = answer.event;
  if (answer.status == ACE_REFUSED) printf("refused event %llu: K%d\n", event, answer.rule);
  else if (answer.status == ACE_OUT_OF_RANGE) printf("malformed line %llu\n", event + 2);
  else if (answer.status == ACE_TOO_MANY_LINES) printf("limit lines\n");
  else if (answer.status != ACE_FINE) printf("status %d\n", answer.status);
  else if (trace->bad_line) printf("malformed line %zu\n", trace->bad_line);
  else printf("accepted %llu\n", event);
}

#ifdef __cplusplus
}
#endif
#endif
