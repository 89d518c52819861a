/* The player: call scripts (docs/CALLS.md) on the library that C links, through include/link.h. It answers as `linkcalls` does, and at every call looks at
 * every byte that it lends. What is not as promised prints a line that begins with `!`, which no answer does, and ends in status 1. */
#include "../../../include/link.h"

enum { LONGEST_LINE = 300000 };

/* ---- rooms.c: all that is lent, each part between guards */

enum { SESSION, LIST, DELIVERY, OUTBOUND, QUEUE, BODY, NUMBERS, LENGTHS, BODIES, REJECT, ROOMS };

extern int shortened; /* the room that is lent one element short; ROOMS: none */

void make_rooms(void);
void *lent(int room);                  /* where it is lent */
size_t length(int room);               /* how many elements are lent */
size_t size(int room);                 /* how many bytes it has */
void resize(int room, size_t bytes);   /* from now on it has so many */
void lend_buffers(void);               /* new guards for the session and the four buffers, new contents of list and delivery buffer */
void lend_arguments(void);             /* new guards for what the line brought */
void remember(int room);               /* as it is now it must stay */
const void *remembered(int room);
bool kept(int room, size_t from, long *at); /* whether the guards and all from a byte on are as remembered; at: the first byte that is not */

link_session *session(void);
#define WORD(name) session()->words[LINK_WORD_##name]
#define HALF(name) session()->halves[LINK_HALF_##name]
#define BYTE(name) session()->bytes[LINK_BYTE_##name]

/* ---- script.c: a line, read */

enum { ARGUMENTS = 8 };
extern uint64_t arg[ARGUMENTS]; /* its numbers, flags, status and clock in their order; bodies and messages are in their rooms */

bool read_line(const uint8_t *line, size_t n, int *call); /* false: it is no call */

/* ---- calls.c: the calls of the script, and how each is made */

enum {
    START, SEND, DATA, ACK, KEEPALIVE, READY, ACCEPT, REJECT_SESSION, PREPARE_CHANNEL, COMMAND, PREPARE, COMPLETE, CONNECTIVITY, REPORT, FETCH, RETIRE,
    RESTORE, STATE, POKE, CALLS
};
typedef struct {
    const char *word, *fields;  /* of the line; script.c has the letters */
    link_answer (*make)(void);
    uint64_t answers;           /* the kind of its answer, unless it is refused */
    unsigned takes;             /* a bit for each room that may be too short for it */
    bool reads;                 /* it may not change the session, nor a store */
} call;
extern const call calls[CALLS];

bool wrong_code(int call);                     /* refusal 2 */
bool excepted(int call, uint64_t refusal);     /* document 01's exceptions: it is refused, and has changed something */

/* ---- checks.c: what a script cannot show */

extern bool failed, started;                   /* something was not as promised; there is a session */
void fault(const char *form, ...);
link_answer play(int call);                    /* makes the call, some others before it that must be refused, and looks at what it left */
void ask(void);                                /* asks the session's questions */
const uint8_t *part(int room, uint64_t start, uint64_t n); /* n bytes of a room; none and a fault where it has not so many */

/* ---- printing.c */

void print_answer(int call, link_answer a);
void print_state(void);
