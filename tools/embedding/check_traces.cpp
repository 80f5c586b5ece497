// check_traces FILE..: the verdict on each trace, by the class of ace.hpp.
#include "ace.hpp"
#include "trace_lines.h"
#include <utility>

static ace_answer verdict(const trace &given) {
  std::string ports;
  for (int port = 0; port < given.ports; port++) ports += given.ace >> port & 1 ? 'A' : 'L';
  ace::Checker first(ports, static_cast<std::uint8_t>(given.version), 4096);
  ace::Checker checker(std::move(first));
  if (first.verdict().status != ACE_NOT_OPEN) std::printf("moved from, and open: ");
  const std::size_t half = checker.feed(given.events, given.count / 2);
  for (std::size_t at = half; at < given.count && checker.feed(given.events[at]); at++) {}
  return checker.verdict();
}

int main(int count, char **words) {
  for (int at = 1; at < count; at++) {
    trace given = read_trace(words[at]);
    try {
      if (!given.version) throw std::invalid_argument("no header lines");
      say_verdict(&given, verdict(given));
    } catch (const std::invalid_argument &) {
      std::printf("no header\n");
    }
    std::free(given.events);
  }
}
