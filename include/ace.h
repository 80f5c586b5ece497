/* The checker of `ace` for programs in C: link with libace.a, or with libace.so. docs/EMBEDDING.md
   tells how to use it. */
#ifndef ACE_H
#define ACE_H
#include <stddef.h>
#include <stdint.h>
#ifdef __cplusplus
extern "C" {
#endif

/* A handle. All zeros it is closed: `ace_checker checker = ACE_CLOSED;`. What it holds belongs to the
   library: write nothing into it but those zeros, and keep one of it (a copy would be a second
   owner). It may move, also to another thread; one call at a time. */
typedef struct ace_checker { void *at; uint8_t live; } ace_checker;
#define ACE_CLOSED { 0, 0 }

/* The kinds of an event, named as the records of docs/TRACE.md. */
enum ace_kind {
  ACE_AR = 0,   /* read address: ARVALID and ARREADY */
  ACE_R = 1,    /* read transfer: RVALID and RREADY */
  ACE_RK = 2,   /* read acknowledge: RACK */
  ACE_AW = 3,   /* write address: AWVALID and AWREADY */
  ACE_W = 4,    /* write transfer: WVALID and WREADY */
  ACE_B = 5,    /* write response: BVALID and BREADY */
  ACE_WK = 6,   /* write acknowledge: WACK */
  ACE_AC = 7,   /* snoop address to the port: ACVALID and ACREADY */
  ACE_CR = 8,   /* snoop response of the port: CRVALID and CRREADY */
  ACE_CD = 9,   /* snoop data of the port: CDVALID and CDREADY */
  ACE_G = 10,   /* the interconnect grants the line to a transaction of the port */
  ACE_M = 11,   /* memory is written for a transaction of the port: the whole line */
  ACE_S = 12,   /* the master moves a line to a state with no transaction */
  ACE_L = 13,   /* the master reads a word of a line from its cache */
  ACE_D = 14,   /* the master writes a line in its cache */
  ACE_OP = 15,  /* an operation of the port's script is done */
  ACE_MEM = 16  /* opening memory of a line, before any other kind; of version 2 alone */
};

/* The state of a line in a cache: Invalid, UniqueClean, UniqueDirty, SharedClean, SharedDirty. */
enum ace_state { ACE_I = 0, ACE_UC = 1, ACE_UD = 2, ACE_SC = 3, ACE_SD = 4 };
/* The channel of the transaction that a grant or a memory write is of. */
enum ace_channel { ACE_READ = 0, ACE_WRITE = 1 };
/* How an operation was done. */
enum ace_outcome { ACE_OK = 0, ACE_SKIP = 1, ACE_FAIL = 2 };

/* An event. Its kind says which fields are looked at; the others may have any value.

     AR   port id addr snoop domain bar flag(ARLOCK)
     R    port id resp flag(RLAST) data[0..15]
     RK   port state
     AW   port id addr snoop domain bar
     W    port number(WSTRB) flag(WLAST) data[0..15]
     B    port id resp
     WK   port state
     AC   port addr snoop
     CR   port resp state
     CD   port flag(CDLAST) data[0..15]
     G    port flag(channel) id
     M    port flag(channel) id data
     S    port addr state
     L    port addr index(word) flag(exclusive) data[0..15]
     D    port addr strobe flag(exclusive) data
     OP   port number(operation) index(outcome)
     MEM  addr data */
typedef struct ace_event {
  uint8_t kind;    /* enum ace_kind */
  uint8_t port;    /* from 0; in version 1 at most 15 */
  uint8_t id;      /* ARID, RID, AWID, BID: 0 to 255, of which a trace of text has 0 to 15; of G and M
                      the AxID of the transaction */
  uint8_t snoop;   /* ARSNOOP, ACSNOOP: 0 to 15; AWSNOOP: 0 to 7 */
  uint8_t domain;  /* ARDOMAIN, AWDOMAIN: 0 to 3 */
  uint8_t bar;     /* ARBAR, AWBAR: 0 to 3 */
  uint8_t resp;    /* RRESP: 0 to 15 (PassDirty 4, IsShared 8); BRESP: 0 to 3; CRRESP: 0 to 31
                      (DataTransfer 1, Error 2, PassDirty 4, IsShared 8, WasUnique 16) */
  uint8_t state;   /* enum ace_state, of the line from then on */
  uint8_t flag;    /* 0 or 1: ARLOCK, RLAST, WLAST, CDLAST; of L and D whether it is exclusive;
                      of G and M an enum ace_channel */
  uint8_t index;   /* of L the word of the line, 0 to 3; of OP an enum ace_outcome */
  uint16_t number; /* WSTRB: bit n belongs to byte n of the beat; of OP its number, from 0 */
  uint64_t addr;   /* ARADDR, AWADDR, ACADDR, the address of S, L, D and MEM: of a line that of its
                      first byte, a multiple of 64, of 64 bits; of a barrier its address, and of a DVM
                      message the word of the part, below 2^32 */
  uint64_t strobe; /* of D: bit n is 1 where byte n of the line is stored */
  uint8_t data[64]; /* bytes in order of address: the 64 of a line, or the 16 of a beat or a word */
} ace_event;

enum ace_status {
  ACE_FINE = 0,            /* no event that was fed breaks a rule: the trace so far is sound */
  ACE_REFUSED = 1,         /* an event breaks a rule, and none before it does */
  ACE_OUT_OF_RANGE = 2,    /* the kind of an event, or a field that it has, has none of the values
                              above; of ace_open: these are no ports of a trace */
  ACE_TOO_MANY_LINES = 3,  /* an event breaks no rule, and its transaction names one line more than
                              were asked for; or an event uses the 67,108,865th line */
  ACE_NO_MEMORY = 4,       /* there was no memory for an event; of ace_open: for a checker */
  ACE_TOO_MANY_EVENTS = 5, /* 2^64 - 2 events were fed */
  ACE_NOT_OPEN = 6         /* the handle is closed */
};

/* event: of ACE_FINE how many were fed, and else the number of the event that the status is of, from
   1; rule: of ACE_REFUSED the number of the least rule that it breaks (docs/RULES.md), and else 0. */
typedef struct ace_answer { uint64_t event; uint8_t status, rule; } ace_answer;

#if defined __cplusplus
#define ACE_HOLDS(it) static_assert(it, "the layout that libace has")
#else
#define ACE_HOLDS(it) _Static_assert(it, "the layout that libace has")
#endif
ACE_HOLDS(sizeof(ace_checker) == 16 && offsetof(ace_checker, live) == 8);
ACE_HOLDS(sizeof(ace_answer) == 16 && offsetof(ace_answer, rule) == 9);
ACE_HOLDS(sizeof(ace_event) == 96 && offsetof(ace_event, index) == 9);
ACE_HOLDS(offsetof(ace_event, number) == 10 && offsetof(ace_event, addr) == 16);
ACE_HOLDS(offsetof(ace_event, strobe) == 24 && offsetof(ace_event, data) == 32);

/* Opens the checker of the empty trace of version 1 or 2 with so many ports (1 to 32), of which those
   with a bit in `ace` are ACE ports and the others ACE-Lite: at most 16 of a kind, in version 1 at
   most 8. Its transactions may name so many lines, or by 0 as many as there is memory for; `ace check`
   takes 4096. What the handle had is closed first. Where the status isn't ACE_FINE the handle is
   closed. The status is ACE_FINE, ACE_OUT_OF_RANGE or ACE_NO_MEMORY. */
uint8_t ace_open(ace_checker *checker, uint8_t version, uint8_t ports, uint32_t ace, size_t lines);

/* Looks at the next event of the trace. The lines get names in the order in which events use them:
   the first has address 0 in the trace that is checked, the next one 64, and so on, and the bytes
   within a line stay. So MEMs may come in any order of their lines, each of one line. The first
   status that isn't ACE_FINE is the status for good: from then on events aren't looked at. */
uint8_t ace_feed(ace_checker *checker, const ace_event *event);

/* Looks at the next events, one after the other, up to the first that isn't fine: how many were. If
   these aren't all, ace_verdict tells why the next one wasn't. `events` isn't NULL, also for none. */
size_t ace_feed_many(ace_checker *checker, const ace_event *events, size_t count);

/* The status, and the event and the rule that it is of. */
ace_answer ace_verdict(ace_checker *checker);

/* Frees what the handle owns and closes it. A closed one stays so. */
void ace_close(ace_checker *checker);

#ifdef __cplusplus
}
#endif
#endif
