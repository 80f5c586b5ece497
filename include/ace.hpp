// The checker of `ace` for programs in C++: a class over the handle of ace.h, which it alone owns.
#ifndef ACE_HPP
#define ACE_HPP
#include "ace.h"
#include <cstddef>
#include <cstdint>
#include <new>
#include <stdexcept>
#include <string>

namespace ace {

class Checker {
 public:
  // The checker of the empty trace. `ports` has a letter for each port, A for ACE and L for ACE-Lite,
  // as the second line of a trace. Transactions may name so many lines, or by 0 as many as there is
  // memory for. Throws std::invalid_argument where these are no ports of a trace.
  explicit Checker(const std::string &ports, std::uint8_t version = 2, std::size_t lines = 0) {
    const std::uint8_t count = ports.size() > 32 ? 33 : static_cast<std::uint8_t>(ports.size());
    switch (ace_open(&handle_, version, count, ace_ports(ports), lines)) {
      case ACE_FINE: return;
      case ACE_NO_MEMORY: throw std::bad_alloc();
      default: throw std::invalid_argument("no ports of a trace: " + ports);
    }
  }
  Checker(const Checker &) = delete;
  Checker &operator=(const Checker &) = delete;
  // What was moved from is closed.
  Checker(Checker &&other) noexcept : handle_(other.handle_) { other.handle_ = ACE_CLOSED; }
  Checker &operator=(Checker &&other) noexcept {
    if (this != &other) {
      ace_close(&handle_);
      handle_ = other.handle_;
      other.handle_ = ACE_CLOSED;
    }
    return *this;
  }
  ~Checker() { ace_close(&handle_); }

  // Looks at the next event: whether it and all before it are fine.
  bool feed(const ace_event &event) { return ace_feed(&handle_, &event) == ACE_FINE; }
  // Looks at the next events: how many were fine before the first that isn't.
  std::size_t feed(const ace_event *events, std::size_t count) {
    return count == 0 ? 0 : ace_feed_many(&handle_, events, count);
  }
  // The status, and the event and the rule that it is of.
  ace_answer verdict() { return ace_verdict(&handle_); }

 private:
  // A bit for each ACE port. A letter that is neither A nor L throws.
  static std::uint32_t ace_ports(const std::string &ports) {
    std::uint32_t bits = 0;
    for (std::size_t port = 0; port < ports.size(); ++port) {
      if (ports[port] == 'A' && port < 32) bits |= std::uint32_t{1} << port;
      if (ports[port] != 'A' && ports[port] != 'L') {
        throw std::invalid_argument("no letter of a port: " + ports);
      }
    }
    return bits;
  }

  ace_checker handle_ = ACE_CLOSED;
};

}  // namespace ace
#endif
