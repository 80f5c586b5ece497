/* What the recorder calls under +ace_live: the one checker of a simulation. The simulator gets it with ACE_LIVE, include/ace.h and libace.a
   (../README.md). A vector of 512 bits comes as words, the least significant first: on a little-endian machine these are the bytes
   of the line or the word in order of address. */
#include "ace.h"
#include "svdpi.h"
#include <string.h>
#ifdef __cplusplus
extern "C" {
#endif

static ace_checker checker = ACE_CLOSED;

int ace_live_open(int version, int count, int ace_ports) {
  return ace_open(&checker, (uint8_t)version, (uint8_t)count, (uint32_t)ace_ports, 0);
}

int ace_live_feed(unsigned char kind, unsigned char port, unsigned char id, unsigned int addr, unsigned char snoop, unsigned char domain,
                  unsigned char bar, unsigned char flag, unsigned char resp, unsigned char state, unsigned char index,
                  unsigned long long strobe, const svBitVecVal *data) {
  ace_event event;
  event.kind = kind;
  event.port = port;
  event.id = id;
  event.snoop = snoop;
  event.domain = domain;
  event.bar = bar;
  event.resp = resp;
  event.state = state;
  event.flag = flag;
  event.index = index;
  event.number = (uint16_t)strobe; /* of a W, or the number of an OP */
  event.addr = addr;
  event.strobe = strobe;
  memcpy(event.data, data, sizeof event.data);
  return ace_feed(&checker, &event);
}

int ace_live_rule(void) { return ace_verdict(&checker).rule; }

#ifdef __cplusplus
}
#endif
