/* The counter link, for C. Link target/staticlib/liblink_c.a (`tools/build link_c`), for x86-64.
 *
 * A session is a struct of yours, link_session. Every call takes it first, lent as four pointers to its parts, and works on it in place; the macro
 * LINK writes those four arguments:
 *
 *     link_session counter;
 *     link_answer a = link_send(LINK(&counter), list, LINK_LIST_WORDS, outbound, sizeof outbound, body, n);
 *
 * Each call is proved to return, list and leave what the link's rules say, for every argument: no call reads or writes outside the session and the buffers
 * that you lend, and none asks anything of you but that a pointer and its length are true, that what is lent does not overlap, and that a bool that you
 * pass, alone or in a struct, is 0 or 1.
 *
 * What a host does, in short (docs/GUIDE.md has it at length):
 *   send      link_send, then link_prepare; write the commit record with the session and both stores to storage; then link_complete with that record. Only
 *             then do the frames come: send each event of code 8 and 9, and link_report what the line said of it.
 *   receive   link_data for a frame of data; take the events of code 2 (bodies in `delivery`, now and in this order); on code 1 commit as above. The
 *             completion lists the acks. link_ack for an ack that came in.
 *   replay    link_connectivity with 4 or 5 when the line is back, or now and then: it lists what is not acknowledged yet.
 *   keep      the session, the outbound store and the queue store belong together: lend each call all three as the call before it left them.
 * What is skipped breaks the link: an ack sent before its commit loses a change at a power cut; an event of code 8 or 9 that is never reported stays to be
 * sent again; a report of code 10 adds an ack that nobody asked for.
 */
#ifndef LINK_H
#define LINK_H

#include <stdbool.h>
#include <stddef.h>
#include <stdint.h>

#ifdef __cplusplus
extern "C" {
#endif

/* ---- buffers: the sizes that a call needs at least. Lend longer ones if you like; a shorter one is refused by 1. */

enum {
    LINK_LIST_WORDS = 4096,      /* list: 1,024 events of four words */
    LINK_DELIVERY_BYTES = 49152, /* delivery: the bodies that a call hands over, packed from 0 */
    LINK_OUTBOUND_BYTES = 65536, /* outbound: the bodies of unacked messages, packed by rising number; part of the session */
    LINK_QUEUE_BYTES = 32768,    /* queue: the bodies of queued messages, packed likewise; part of the session */
    LINK_UNACKED = 256,          /* unacked messages at most */
    LINK_QUEUED = 256,
    LINK_NUMBERS = 512,
    LINK_HANDOFF_BYTES = 4096,
    LINK_REJECT_BYTES = 64
};

/* ---- events: four words each, code, number, start, length. Only 2 and 8 have a start and a length; a word that has no meaning is 0. */

enum {
    LINK_COMMIT_REQUESTED = 1,       /* save: prepare, write, complete */
    LINK_MESSAGE = 2,                /* message `number` is handed over: `length` bytes from `start` of delivery */
    LINK_ACKNOWLEDGED = 3,           /* the other end has everything up to `number` */
    LINK_REJECTION_ACKNOWLEDGED = 4, /* the rejection arrived */
    LINK_KEEPALIVE = 5,
    LINK_COMMITTED = 6,              /* a commit was saved */
    LINK_FAILURE = 7,                /* `number` is the refusal; the queue is empty */
    LINK_SEND_DATA = 8,              /* send message `number`: `length` bytes from `start` of outbound. Report it (what 0) */
    LINK_SEND_ACK = 9,               /* send an ack of `number`. Report it (what 1) */
    LINK_ANSWER_ACK = 10             /* send an ack of `number`. Do not report it */
};

/* ---- refusals: 0 where there is none. What is refused changes nothing, but for data by 4, 5, 9, 21, 24, 25 and acks by 7 (the queue is emptied and
 * LINK_FAILURE listed), and a restoring command by 21, 23, 32 to 36 (the setup is started). */

enum {
    LINK_SHORT_BUFFER = 1,            /* a buffer is shorter than above */
    LINK_UNKNOWN_CODE = 2,            /* a kind, mode, event, disposition or report outside its list */
    LINK_BAD_RECORD = 3,              /* a record, policy or session that no calls leave */
    LINK_BODY_TOO_LONG = 4,           /* a body above the policy */
    LINK_GAP_TOO_WIDE = 5,            /* a number too far ahead */
    LINK_LAST_NUMBER = 6,             /* data number 2^64 - 1 */
    LINK_ACK_OUT_OF_RANGE = 7,        /* ack 0, or of a message that was never sent */
    LINK_COMMIT_NUMBER = 8,           /* a commit record with 2^64 - 1 */
    LINK_NOT_A_PROPOSAL = 9,
    LINK_HANDOFF_TOO_LONG = 10,
    LINK_NUMBERS_EXHAUSTED = 21,      /* message 4,294,967,295 was the last */
    LINK_GENERATIONS_EXHAUSTED = 22,  /* start a new session */
    LINK_UNACKED_FULL = 23,           /* 256 messages or 65,536 bytes: wait for acks */
    LINK_QUEUE_COUNT = 24,
    LINK_QUEUE_FULL = 25,
    LINK_ACKS_FULL = 26,              /* commit: 512 acks wait */
    LINK_RETRIES_FULL = 27,           /* 512 acks were not accepted by the line */
    LINK_RESTORE_TOO_LATE = 28,
    LINK_ALREADY_ACCEPTED = 29,
    LINK_PROPOSAL_NOT_FIRST = 30,
    LINK_OTHER_HANDOFF = 31,
    LINK_HANDOFF_WITHOUT_COMMAND = 32,
    LINK_HANDOFF_PENDING = 33,
    LINK_COMMAND_DIFFERS = 34,
    LINK_HANDOFF_INCONSISTENT = 35,
    LINK_HANDOFF_NOT_HELD = 36,
    LINK_CHANNEL_STARTED = 37,
    LINK_SETUP_RETIRED = 38
};

/* ---- codes */

enum { LINK_OTHER = 0, LINK_ACTIVE = 1, LINK_PROPOSAL_RECEIVED = 2, LINK_INBOUND_REJECT = 3, LINK_OUTBOUND_REJECT = 4 };            /* disposition */
enum { LINK_SETUP_NONE = 0, LINK_SETUP_WAITING = 1, LINK_SETUP_STARTED = 2, LINK_SETUP_IS_RETIRED = 3 };                            /* setup */
enum { LINK_RAW = 0, LINK_PROPOSAL = 1, LINK_CHANNEL = 2, LINK_REJECTION = 3, LINK_RETIRING = 4 };                                  /* mode */
enum { LINK_KIND_OTHER = 0, LINK_KIND_PROPOSAL = 1, LINK_KIND_REJECT = 2 };                                                         /* kind of data */
enum { LINK_DISCONNECTED = 1, LINK_RECONNECTED = 2, LINK_PEER_UNAVAILABLE = 3, LINK_REGISTERED = 4, LINK_PEER_AVAILABLE = 5 };      /* connectivity */
enum { LINK_REPORT_DATA = 0, LINK_REPORT_ACK = 1 };                                                                                 /* report */
enum { LINK_DONE = 0, LINK_NUMBER = 1, LINK_FLAG = 2, LINK_PREPARED = 3, LINK_HELD = 4, LINK_NOT_HELD = 5, LINK_REFUSED = 6 };      /* kind of answer */

/* ---- the session: 18,400 bytes without padding. Its numbers are the link's: read none but by calls, and write none. A session that no calls leave, one of
 * zeros too, is refused by 3 and not touched.
 *
 * It holds no pointer: copy it by assignment, save it as bytes. What to save is the struct and both stores, all of each: last_replay_at and every other
 * number belong to it. Loaded again, the three are the session that was saved. */

typedef struct {
    double last_replay_at;
    uint64_t words[1296];
    uint32_t halves[772];
    uint8_t bytes[4936];
} link_session;

/* A session as the first four arguments of a call. s is a pointer, and is evaluated four times. */
#define LINK(s) (s)->words, (s)->halves, (s)->bytes, &(s)->last_replay_at

/* The same as parameters: of a call that changes the session, and of one that reads it. */
#define LINK_CHANGED uint64_t *words, uint32_t *halves, uint8_t *bytes, double *last_replay_at
#define LINK_READ const uint64_t *words, const uint32_t *halves, const uint8_t *bytes, const double *last_replay_at

/* Where each number stands, for tests and dumps. Entries past a count mean nothing. A flag is 0 for false, anything else for true. */

enum { /* words */
    LINK_WORD_NEXT = 0,              /* the next message number */
    LINK_WORD_UNACKED = 1,           /* how many messages are unacked */
    LINK_WORD_REMOTE = 2,            /* the number handed over last */
    LINK_WORD_RELEASED = 3,          /* the number that a commit released last */
    LINK_WORD_QUEUED = 4,            /* how many frames are queued */
    LINK_WORD_WAITING = 5,           /* how many acks wait for a commit */
    LINK_WORD_RETRIES = 6,           /* how many acks the line did not accept */
    LINK_WORD_HANDOFF_LEN = 7,       /* the terminal handoff: its body's length, its id, its message's number */
    LINK_WORD_HANDOFF_ID = 8,
    LINK_WORD_HANDOFF_NUMBER = 9,
    LINK_WORD_POLICY_GAP = 10,       /* the four numbers of link_policy */
    LINK_WORD_POLICY_MESSAGES = 11,
    LINK_WORD_POLICY_BYTES = 12,
    LINK_WORD_POLICY_BODY = 13,
    LINK_WORD_REJECT_LEN = 14,       /* word 15 is spare */
    LINK_WORD_QUEUED_NUMBERS = 16,   /* 256 */
    LINK_WORD_WAITING_NUMBERS = 272, /* 512 */
    LINK_WORD_RETRY_NUMBERS = 784,   /* 512 */
    LINK_WORDS = 1296
};
enum { /* halves */
    LINK_HALF_UNACKED_NUMBERS = 0, /* 256 */
    LINK_HALF_UNACKED_LENS = 256,  /* 256 */
    LINK_HALF_QUEUED_LENS = 512,   /* 256 */
    LINK_HALF_GENERATION = 768,
    LINK_HALF_RELEASED_GENERATION = 769,
    LINK_HALF_PERSISTED_GENERATION = 770,
    LINK_HALF_TERMS = 771,         /* of a setup that waits */
    LINK_HALVES = 772
};
enum { /* bytes */
    LINK_BYTE_PENDING = 0,         /* 256 flags: the message waits for a commit */
    LINK_BYTE_UNSENT = 256,        /* 256 flags: it was listed, and not reported as accepted */
    LINK_BYTE_QUEUED_KINDS = 512,  /* 256 */
    LINK_BYTE_DISPOSITION = 768,
    LINK_BYTE_SETUP = 769,
    LINK_BYTE_INITIATOR = 770,     /* a flag, of a setup that waits */
    LINK_BYTE_MODE = 771,
    LINK_BYTE_FAILED = 772,        /* this and the next three are flags */
    LINK_BYTE_HANDOFF_SENT = 773,
    LINK_BYTE_HANDOFF_ACKNOWLEDGED = 774,
    LINK_BYTE_HANDOFF_PRESENT = 775,
    LINK_BYTE_HANDOFF_BODY = 776,  /* 4096 */
    LINK_BYTE_REJECT_BODY = 4872,  /* 64 */
    LINK_BYTES = 4936
};

/* ---- what calls take and return */

/* kind says what it is: LINK_NUMBER and LINK_FLAG in value; LINK_PREPARED the commit record, value generation, second outbound, third remote; LINK_HELD the
 * body's start in value and its length in second. events counts the events in list. */
typedef struct { uint64_t refusal, kind, value, second, third; size_t events; } link_answer;

/* How far ahead, how many, how many bytes and how long a body may be that is not in order yet. */
typedef struct { uint64_t gap; size_t messages, bytes, body; } link_policy;

typedef struct { uint64_t message_number, remote_number, disposition; } link_reliable;
typedef struct { bool present; uint64_t id, number; bool sent, acknowledged; } link_handoff_given;
typedef struct { uint32_t generation; uint64_t outbound, remote; } link_commit;
typedef struct { uint32_t number; bool initiator; } link_terms;
typedef struct { bool available, established, discarding; } link_status;
typedef struct { link_policy policy; bool known; } link_class_policy;
typedef struct { link_terms terms; bool waiting; } link_waiting_terms;

/* ---- calls. `list` and the like are a pointer and a length; a buffer of length 0 may have any pointer that is not null. */

/* The policy of class 0 to 3. */
link_class_policy link_class(uint64_t link_class);

/* A new session, whatever stood in the struct. Its unacked messages come as numbers (rising), lengths, and the bodies one after the other; for a fresh end
 * message_number is 1, all else 0. reject: 1 to 64 bytes. Fills both stores. Refusals 1, 2, 3: then the session that was there stays. */
link_answer link_start(LINK_CHANGED, link_reliable record, const uint64_t *numbers, size_t numbers_len, const uint64_t *lengths, size_t lengths_len,
    const uint8_t *bodies, size_t bodies_len, link_policy policy, const uint8_t *reject, size_t reject_len, uint8_t *outbound, size_t outbound_len,
    uint8_t *queue, size_t queue_len);

/* The body gets the next number: answer LINK_NUMBER. Refusals 1, 3, 21, 22, 23. */
link_answer link_send(LINK_CHANGED, uint64_t *list, size_t list_len, uint8_t *outbound, size_t outbound_len, const uint8_t *body, size_t body_len);

/* The commit record of what is there now: answer LINK_PREPARED. Refusal 3. */
link_answer link_prepare(LINK_READ);

/* The record was saved (persisted), or could not be. Lists what may now be sent. Refusals 1, 3, 8. */
link_answer link_complete(LINK_CHANGED, uint64_t *list, size_t list_len, link_commit commit, bool persisted);

/* What the line said of a frame of code 8 (what 0) or 9 (what 1). Refusals 1, 2, 3, 27. */
link_answer link_report(LINK_CHANGED, uint64_t *list, size_t list_len, uint64_t what, uint64_t number, bool accepted);

/* The line changed, or time passed: answer LINK_FLAG, and for 4 and 5 the unacked messages, again. time in milliseconds; unforced at most one replay a second.
 * Refusals 1, 2, 3. */
link_answer link_connectivity(LINK_CHANGED, uint64_t *list, size_t list_len, uint64_t event, double time, bool force);

/* Whether a number is held: LINK_HELD, and then its body is `second` bytes from outbound + value; else LINK_NOT_HELD. Refusals 1, 3. */
link_answer link_find(LINK_READ, const uint8_t *outbound, size_t outbound_len, uint64_t number);

/* A frame of data came. Refusals 1 to 6, 9, 21, 22, 24 to 26. */
link_answer link_data(LINK_CHANGED, uint64_t *list, size_t list_len, uint8_t *delivery, size_t delivery_len, uint8_t *outbound, size_t outbound_len,
    uint8_t *queue, size_t queue_len, link_status status, uint64_t number, uint64_t kind, const uint8_t *body, size_t body_len);

/* Who takes messages changed (mode), and is ready. Refusals 1, 2, 3, 22. */
link_answer link_consumer_ready(LINK_CHANGED, uint64_t *list, size_t list_len, uint8_t *delivery, size_t delivery_len, uint8_t *outbound,
    size_t outbound_len, uint8_t *queue, size_t queue_len, link_status status, uint64_t mode);

/* An ack came. Refusals 1, 3, 7, 22. */
link_answer link_ack(LINK_CHANGED, uint64_t *list, size_t list_len, uint8_t *outbound, size_t outbound_len, uint8_t *queue, size_t queue_len,
    uint64_t number);

/* A keepalive came. It changes nothing and lists the acks to try again. Refusals 1, 3. */
link_answer link_keepalive(LINK_READ, uint64_t *list, size_t list_len);

/* Setup: a proposal is accepted, or made (initiator); rejected; its channel made; the setup ended, with its messages kept or dropped. */
link_answer link_accept(LINK_CHANGED, uint8_t *outbound, size_t outbound_len, link_terms terms, const uint8_t *body, size_t body_len);
link_answer link_reject(LINK_CHANGED, uint64_t *list, size_t list_len, uint8_t *outbound, size_t outbound_len);
link_answer link_prepare_channel(LINK_CHANGED, link_terms terms);
link_answer link_retire(LINK_CHANGED, uint8_t *outbound, size_t outbound_len, uint8_t *queue, size_t queue_len, bool retain);

/* A channel's command: none (present false), or a terminal handoff with this id and body. */
link_answer link_command(LINK_CHANGED, uint64_t *list, size_t list_len, uint8_t *outbound, size_t outbound_len, bool restoring, bool present,
    uint64_t id, const uint8_t *body, size_t body_len);

/* A session that has done nothing yet (generation 0, nothing queued, no ack waiting) takes a record, as link_start does, and a terminal handoff with this
 * body. Refusals 1, 2, 3, 10, 28, 31; refused by 31 it has taken the record. */
link_answer link_restore(LINK_CHANGED, uint8_t *outbound, size_t outbound_len, link_reliable record, const uint64_t *numbers, size_t numbers_len,
    const uint64_t *lengths, size_t lengths_len, const uint8_t *bodies, size_t bodies_len, link_handoff_given given, const uint8_t *body, size_t body_len);

/* Questions: is something left to commit; does a setup wait or run; is it retired; its terms; did a rejection arrive. */
bool link_dirty(LINK_READ);
bool link_accepted(LINK_READ);
bool link_retired(LINK_READ);
link_waiting_terms link_channel_terms(LINK_READ);
bool link_rejection_complete(LINK_READ);

#ifdef __cplusplus
}
#endif

#endif
