/* include/link.h against the library. Every number of a session is brought to a value by calls and read at its index, each array as a whole; every call gets
 * each argument where the library looks for it; a session that was altered is refused by 3 and not touched, nor are the buffers. What stands around the
 * session in memory must stay as it was. */
#include "../include/link.h"
#include <stdio.h>
#include <string.h>

static int passed, failed;
#define SAME(what, is, must)                                                                                                        \
    do {                                                                                                                            \
        unsigned long long is_ = (unsigned long long)(is), must_ = (unsigned long long)(must);                                      \
        if (is_ == must_) passed++;                                                                                                 \
        else failed++, printf("FAILED layout: %s is %llu, not %llu\n", what, is_, must_);                                           \
    } while (0)
#define ALL(what, count, is, must) /* for each i below count */                                                                     \
    do {                                                                                                                            \
        size_t i = 0;                                                                                                               \
        while (i < (count) && (uint64_t)(is) == (uint64_t)(must)) i++;                                                              \
        if (i == (count)) passed++;                                                                                                 \
        else failed++, printf("FAILED layout: %s, place %zu of %zu\n", what, i, (size_t)(count));                                   \
    } while (0)

static uint64_t list[LINK_LIST_WORDS];
static uint8_t outbound[LINK_OUTBOUND_BYTES], queue[LINK_QUEUE_BYTES], delivery[LINK_DELIVERY_BYTES];
static struct { uint8_t below[64]; link_session s; uint8_t above[64]; } at;
#define S LINK(&at.s)
#define WORD(name) at.s.words[LINK_WORD_##name]
#define HALF(name) at.s.halves[LINK_HALF_##name]
#define BYTE(name) at.s.bytes[LINK_BYTE_##name]
#define WORD_AT(name, i) at.s.words[LINK_WORD_##name + (i)]
#define HALF_AT(name, i) at.s.halves[LINK_HALF_##name + (i)]
#define BYTE_AT(name, i) at.s.bytes[LINK_BYTE_##name + (i)]
#define LIST list, LINK_LIST_WORDS
#define OUT outbound, sizeof outbound
#define QUEUE queue, sizeof queue
#define DELIVERY delivery, sizeof delivery

static uint8_t body[LINK_HANDOFF_BYTES];
static uint64_t numbers[LINK_UNACKED], lengths[LINK_UNACKED];
static const link_status available = {true, false, false}, away = {false, true, true};

static link_answer start(uint64_t next, uint64_t remote, uint64_t disposition, size_t unacked) {
    for (size_t i = 0; i < unacked; i++) numbers[i] = 1000 + i, lengths[i] = i % 16;
    return link_start(S, (link_reliable){next, remote, disposition}, numbers, unacked, lengths, unacked, body, sizeof body, link_class(3).policy, body + 1,
        LINK_REJECT_BYTES, OUT, QUEUE);
}
static link_answer data(link_status status, uint64_t number, uint64_t kind, size_t length) {
    return link_data(S, LIST, DELIVERY, OUT, QUEUE, status, number, kind, body, length);
}
static link_answer commit(void) {
    link_answer a = link_prepare(S);
    return link_complete(S, LIST, (link_commit){(uint32_t)a.value, a.second, a.third}, true);
}
static void guards(void) {
    ALL("a byte below the session", sizeof at.below, at.below[i], 0xa5);
    ALL("a byte above the session", sizeof at.above, at.above[i], 0xa5);
}

static void sizes(void) {
    SAME("sizeof link_session", sizeof(link_session), 18400);
    SAME("offset of words", offsetof(link_session, words), 8);
    SAME("offset of halves", offsetof(link_session, halves), 8 + 8 * LINK_WORDS);
    SAME("offset of bytes", offsetof(link_session, bytes), 8 + 8 * LINK_WORDS + 4 * LINK_HALVES);
    SAME("words", sizeof at.s.words / 8, LINK_WORDS);
    SAME("halves", sizeof at.s.halves / 4, LINK_HALVES);
    SAME("bytes", sizeof at.s.bytes, LINK_BYTES);
    SAME("the last of words", LINK_WORD_RETRY_NUMBERS + LINK_NUMBERS, LINK_WORDS);
    SAME("the last of halves", LINK_HALF_TERMS + 1, LINK_HALVES);
    SAME("the last of bytes", LINK_BYTE_REJECT_BODY + LINK_REJECT_BYTES, LINK_BYTES);
    SAME("sizeof link_answer", sizeof(link_answer), 48);
    SAME("sizeof link_policy", sizeof(link_policy), 32);
    SAME("sizeof link_reliable", sizeof(link_reliable), 24);
    SAME("sizeof link_handoff_given", sizeof(link_handoff_given), 32);
    SAME("sizeof link_commit", sizeof(link_commit), 24);
    SAME("sizeof link_terms", sizeof(link_terms), 8);
    SAME("sizeof link_status", sizeof(link_status), 3);
}

static void classes(void) {
    static const uint64_t must[4][4] = {{8, 8, 1024, 128}, {64, 64, 8192, 512}, {256, 256, 32768, 4096}, {256, 256, 32768, 16384}};
    for (uint64_t n = 0; n < 4; n++) {
        link_class_policy c = link_class(n);
        SAME("class known", c.known, true);
        SAME("class gap", c.policy.gap, must[n][0]);
        SAME("class messages", c.policy.messages, must[n][1]);
        SAME("class bytes", c.policy.bytes, must[n][2]);
        SAME("class body", c.policy.body, must[n][3]);
    }
    SAME("class 4", link_class(4).known, false);
}

/* ---- the numbers of a session */

static void a_start(void) {
    memset(&at, 0xa5, sizeof at);
    memset(outbound, 0xa5, sizeof outbound), memset(queue, 0xa5, sizeof queue);
    link_answer a = start(4000000000u, 77, LINK_PROPOSAL_RECEIVED, LINK_UNACKED);
    SAME("start", a.refusal, 0);
    SAME("start's kind", a.kind, LINK_DONE);
    guards();
    SAME("next", WORD(NEXT), 4000000000u);
    SAME("unacked", WORD(UNACKED), 256);
    ALL("unacked numbers", 256, HALF_AT(UNACKED_NUMBERS, i), 1000 + i);
    ALL("unacked lengths", 256, HALF_AT(UNACKED_LENS, i), i % 16);
    ALL("pending", 256, BYTE_AT(PENDING, i), false);
    ALL("unsent", 256, BYTE_AT(UNSENT, i), false);
    ALL("outbound, the bodies", 1920, outbound[i], body[i]);
    ALL("outbound, the rest", sizeof outbound - 1920, outbound[1920 + i], 0);
    ALL("queue store", sizeof queue, queue[i], 0);
    SAME("remote", WORD(REMOTE), 77);
    SAME("released", WORD(RELEASED), 77);
    SAME("queued", WORD(QUEUED), 0);
    SAME("waiting", WORD(WAITING), 0);
    SAME("retries", WORD(RETRIES), 0);
    SAME("generation", HALF(GENERATION), 0);
    SAME("released generation", HALF(RELEASED_GENERATION), 0);
    SAME("persisted generation", HALF(PERSISTED_GENERATION), 0);
    SAME("last replay at 0", at.s.last_replay_at == 0.0, true);
    SAME("terms", HALF(TERMS), 0);
    SAME("disposition", BYTE(DISPOSITION), LINK_PROPOSAL_RECEIVED);
    SAME("setup", BYTE(SETUP), LINK_SETUP_NONE);
    SAME("initiator", BYTE(INITIATOR), false);
    SAME("mode", BYTE(MODE), LINK_RAW);
    SAME("failed", BYTE(FAILED), false);
    SAME("handoff present", BYTE(HANDOFF_PRESENT), false);
    SAME("policy gap", WORD(POLICY_GAP), 256);
    SAME("policy messages", WORD(POLICY_MESSAGES), 256);
    SAME("policy bytes", WORD(POLICY_BYTES), 32768);
    SAME("policy body", WORD(POLICY_BODY), 16384);
    SAME("reject length", WORD(REJECT_LEN), 64);
    ALL("reject body", 64, BYTE_AT(REJECT_BODY, i), body[1 + i]);
    a = link_find(S, OUT, 1255);
    SAME("find", a.kind, LINK_HELD);
    SAME("find, start of the last", a.value, 120 * 16 - 15);
    SAME("find, its length", a.second, 15);
    SAME("find 999", link_find(S, OUT, 999).kind, LINK_NOT_HELD);
    a = link_send(S, LIST, OUT, body, 1);
    SAME("refused", a.refusal, LINK_UNACKED_FULL);
    SAME("refused, kind", a.kind, LINK_REFUSED);
}

/* the four numbers of a policy, and a reject body of 1 byte */
static void a_policy(void) {
    link_answer a = link_start(S, (link_reliable){7, 8, 3}, numbers, 0, lengths, 0, body, 0, (link_policy){11, 12, 1300, 140}, body + 5, 1, OUT, QUEUE);
    SAME("a policy", a.refusal, 0);
    SAME("policy.gap", WORD(POLICY_GAP), 11);
    SAME("policy.messages", WORD(POLICY_MESSAGES), 12);
    SAME("policy.bytes", WORD(POLICY_BYTES), 1300);
    SAME("policy.body", WORD(POLICY_BODY), 140);
    SAME("record.message_number", WORD(NEXT), 7);
    SAME("record.remote_number", WORD(REMOTE), 8);
    SAME("record.disposition", BYTE(DISPOSITION), LINK_INBOUND_REJECT);
    SAME("one byte of reject", WORD(REJECT_LEN), 1);
    SAME("that byte", BYTE(REJECT_BODY), body[5]);
}

static void sends(void) {
    start(3000, 0, LINK_OTHER, 255);
    link_answer a = link_send(S, LIST, OUT, body, 300);
    SAME("send, its number", a.value, 3000);
    SAME("send, kind", a.kind, LINK_NUMBER);
    SAME("send, events", a.events, 1);
    SAME("send, list", list[0], LINK_COMMIT_REQUESTED);
    SAME("next after a send", WORD(NEXT), 3001);
    SAME("unacked after a send", WORD(UNACKED), 256);
    SAME("number of the last", HALF_AT(UNACKED_NUMBERS, 255), 3000);
    SAME("length of the last", HALF_AT(UNACKED_LENS, 255), 300);
    SAME("pending, the last", BYTE_AT(PENDING, 255), true);
    SAME("unsent, the last", BYTE_AT(UNSENT, 255), false);
    SAME("generation after a send", HALF(GENERATION), 1);
    SAME("dirty after a send", link_dirty(S), true);
    a = link_prepare(S);
    SAME("prepare, kind", a.kind, LINK_PREPARED);
    SAME("prepare, generation", a.value, 1);
    SAME("prepare, outbound", a.second, 3000);
    SAME("prepare, remote", a.third, 0);
    a = link_complete(S, LIST, (link_commit){1, 3000, 0}, true);
    SAME("complete, events", a.events, 2);
    SAME("complete, code", list[0], LINK_SEND_DATA);
    SAME("complete, number", list[1], 3000);
    SAME("complete, start", list[2], 1905);
    SAME("complete, length", list[3], 300);
    SAME("complete, committed", list[4], LINK_COMMITTED);
    SAME("not pending, the last", BYTE_AT(PENDING, 255), false);
    SAME("unsent, not reported", BYTE_AT(UNSENT, 255), true);
    SAME("released generation, completed", HALF(RELEASED_GENERATION), 1);
    SAME("persisted generation, completed", HALF(PERSISTED_GENERATION), 1);
    SAME("not dirty", link_dirty(S), false);
    a = link_report(S, LIST, LINK_REPORT_DATA, 3000, false);
    SAME("unsent, not accepted", BYTE_AT(UNSENT, 255), true);
    a = link_report(S, LIST, LINK_REPORT_DATA, 3000, true);
    SAME("not unsent, accepted", BYTE_AT(UNSENT, 255), false);
    a = link_connectivity(S, LIST, LINK_REGISTERED, 1234.5, false);
    SAME("replay, events", a.events, 256);
    SAME("replay, flag", a.value, true);
    SAME("last replay at 1234.5", at.s.last_replay_at == 1234.5, true);
    a = link_connectivity(S, LIST, LINK_REGISTERED, 1300.0, false);
    SAME("too soon", a.value, false);
    SAME("too soon, last replay", at.s.last_replay_at == 1234.5, true);
    a = link_connectivity(S, LIST, LINK_PEER_AVAILABLE, 1300.0, true);
    SAME("forced", a.value, true);
    SAME("forced, last replay", at.s.last_replay_at == 1300.0, true);
    a = link_ack(S, LIST, OUT, QUEUE, 1127);
    SAME("ack, events", a.events, 2);
    SAME("ack, list", list[4], LINK_ACKNOWLEDGED);
    SAME("ack, its number", list[5], 1127);
    SAME("unacked after an ack", WORD(UNACKED), 128);
    ALL("numbers after an ack", 127, HALF_AT(UNACKED_NUMBERS, i), 1128 + i);
    ALL("lengths after an ack", 127, HALF_AT(UNACKED_LENS, i), i % 16);
    SAME("the last after an ack", HALF_AT(UNACKED_NUMBERS, 127), 3000);
    SAME("its length", HALF_AT(UNACKED_LENS, 127), 300);
    SAME("generation after an ack", HALF(GENERATION), 2);
}

/* the fields of a commit record, and persisted */
static void completes(void) {
    start(1, 0, LINK_OTHER, 0);
    for (int i = 0; i < 3; i++) link_send(S, LIST, OUT, body, 10);
    SAME("complete, outbound above all", link_complete(S, LIST, (link_commit){3, UINT64_MAX, 0}, true).refusal, LINK_COMMIT_NUMBER);
    SAME("complete, remote above all", link_complete(S, LIST, (link_commit){3, 3, UINT64_MAX}, true).refusal, LINK_COMMIT_NUMBER);
    SAME("complete, not saved", link_complete(S, LIST, (link_commit){2, 2, 5}, false).events, 2);
    SAME("released generation, not saved", HALF(RELEASED_GENERATION), 2);
    SAME("persisted generation, not saved", HALF(PERSISTED_GENERATION), 0);
    SAME("released remote", WORD(RELEASED), 5);
    SAME("pending, released", BYTE_AT(PENDING, 1), false);
    SAME("pending, later", BYTE_AT(PENDING, 2), true);
    SAME("complete, old", link_complete(S, LIST, (link_commit){1, 3, 0}, true).events, 1);
    SAME("persisted generation, old", HALF(PERSISTED_GENERATION), 1);
}

static void receives(void) {
    start(1, 0, LINK_OTHER, 0);
    for (uint64_t n = 2; n <= 257; n++) data(away, n, n % 3, n % 100);
    SAME("queued, 256", WORD(QUEUED), 256);
    ALL("queued numbers", 256, WORD_AT(QUEUED_NUMBERS, i), 2 + i);
    ALL("queued lengths", 256, HALF_AT(QUEUED_LENS, i), (2 + i) % 100);
    ALL("queued kinds", 256, BYTE_AT(QUEUED_KINDS, i), (2 + i) % 3);
    SAME("a body in the queue store", memcmp(queue, body, 2) || memcmp(queue + 2, body, 3), 0);
    SAME("nothing handed over yet", WORD(REMOTE), 0);
    link_answer a = data(available, 1, 0, 7);
    SAME("message 1, flag", a.value, true);
    SAME("message 1 and 256 queued", a.events, 2 * 257 + 1);
    SAME("message, code", list[0], LINK_MESSAGE);
    SAME("message, number", list[1], 1);
    SAME("message, length", list[3], 7);
    SAME("message, body", memcmp(delivery + list[2], body, 7), 0);
    SAME("remote, drained", WORD(REMOTE), 257);
    SAME("queued, drained", WORD(QUEUED), 0);
    start(1, 0, LINK_OTHER, 0);
    for (uint64_t n = 1; n <= 512; n++) data(available, n, 0, 0);
    SAME("waiting, 512", WORD(WAITING), 512);
    ALL("waiting numbers", 512, WORD_AT(WAITING_NUMBERS, i), 1 + i);
    SAME("remote, handed over", WORD(REMOTE), 512);
    SAME("released, not yet", WORD(RELEASED), 0);
    SAME("generation, each raised it", HALF(GENERATION), 512);
    for (uint64_t n = 1; n <= 512; n++) link_report(S, LIST, LINK_REPORT_ACK, 3 * n, false);
    SAME("retries, 512", WORD(RETRIES), 512);
    ALL("retry numbers", 512, WORD_AT(RETRY_NUMBERS, i), 3 * (1 + i));
    SAME("keepalive, events", link_keepalive(S, LIST).events, 513);
    SAME("keepalive, the last", list[4 * 512 + 1], 3 * 512);
    link_report(S, LIST, LINK_REPORT_ACK, 3, true);
    SAME("retries, one accepted", WORD(RETRIES), 511);
    SAME("retry numbers, one accepted", WORD(RETRY_NUMBERS), 6);
    a = commit();
    SAME("acks released", a.events, 513);
    SAME("the first ack", list[0], LINK_SEND_ACK);
    SAME("released, committed", WORD(RELEASED), 512);
    SAME("waiting, committed", WORD(WAITING), 0);
}

static void stages(void) {
    start(1, 0, LINK_OTHER, 0);
    SAME("no terms", link_channel_terms(S).waiting, false);
    link_accept(S, OUT, (link_terms){4294967290u, true}, body, 7);
    SAME("setup, waiting", BYTE(SETUP), LINK_SETUP_WAITING);
    SAME("terms, waiting", HALF(TERMS), 4294967290u);
    SAME("initiator, waiting", BYTE(INITIATOR), true);
    SAME("disposition, active", BYTE(DISPOSITION), LINK_ACTIVE);
    SAME("the proposal's length", HALF(UNACKED_LENS), 7);
    link_waiting_terms t = link_channel_terms(S);
    SAME("terms.number", t.terms.number, 4294967290u);
    SAME("terms.initiator", t.terms.initiator, true);
    SAME("waiting", t.waiting, true);
    SAME("accepted", link_accepted(S), true);
    SAME("not retired", link_retired(S), false);
    link_consumer_ready(S, LIST, DELIVERY, OUT, QUEUE, away, LINK_CHANNEL);
    SAME("mode, channel", BYTE(MODE), LINK_CHANNEL);
    SAME("refused by the gap", data(available, 1000, 0, 1).refusal, LINK_GAP_TOO_WIDE);
    SAME("failed, by the gap", BYTE(FAILED), true);
    link_answer a = link_command(S, LIST, OUT, false, true, 0xfedcba9876543210u, body, LINK_HANDOFF_BYTES);
    SAME("command", a.refusal, 0);
    SAME("handoff present, commanded", BYTE(HANDOFF_PRESENT), true);
    SAME("handoff id", WORD(HANDOFF_ID), 0xfedcba9876543210u);
    SAME("handoff number", WORD(HANDOFF_NUMBER), 2);
    SAME("handoff length", WORD(HANDOFF_LEN), LINK_HANDOFF_BYTES);
    ALL("handoff body", LINK_HANDOFF_BYTES, BYTE_AT(HANDOFF_BODY, i), body[i]);
    SAME("handoff not sent", BYTE(HANDOFF_SENT), false);
    SAME("command, another is pending", link_command(S, LIST, OUT, false, true, 1, body, 1).refusal, LINK_HANDOFF_PENDING);
    SAME("command, none", link_command(S, LIST, OUT, false, false, 0, body, 0).refusal, 0);
    SAME("setup, not restoring", BYTE(SETUP), LINK_SETUP_WAITING);
    SAME("command, restoring without one", link_command(S, LIST, OUT, true, false, 0, body, 0).refusal, LINK_HANDOFF_WITHOUT_COMMAND);
    SAME("setup, started", BYTE(SETUP), LINK_SETUP_STARTED);
    SAME("prepare channel, started", link_prepare_channel(S, (link_terms){7, false}).refusal, LINK_CHANNEL_STARTED);
    commit();
    link_report(S, LIST, LINK_REPORT_DATA, 1, true);
    SAME("report of the handoff, events", link_report(S, LIST, LINK_REPORT_DATA, 2, true).events, 1);
    SAME("handoff sent, reported", BYTE(HANDOFF_SENT), true);
    SAME("handoff not acknowledged", BYTE(HANDOFF_ACKNOWLEDGED), false);
    link_ack(S, LIST, OUT, QUEUE, 2);
    SAME("handoff acknowledged", BYTE(HANDOFF_ACKNOWLEDGED), true);
    SAME("retire, nothing retained", link_retire(S, OUT, QUEUE, true).value, false);
    SAME("retired", link_retired(S), true);
    SAME("setup, retired", BYTE(SETUP), LINK_SETUP_IS_RETIRED);
    SAME("handoff gone", BYTE(HANDOFF_PRESENT), false);
    SAME("prepare channel, retired", link_prepare_channel(S, (link_terms){7, false}).refusal, LINK_SETUP_RETIRED);

    start(5, 0, LINK_OTHER, 0);
    link_prepare_channel(S, (link_terms){123, false});
    SAME("terms, not the initiator's", HALF(TERMS), 123);
    SAME("not the initiator", BYTE(INITIATOR), false);
    SAME("setup of a channel", BYTE(SETUP), LINK_SETUP_WAITING);
    a = link_reject(S, LIST, OUT);
    SAME("reject, events", a.events, 1);
    SAME("disposition, outbound reject", BYTE(DISPOSITION), LINK_OUTBOUND_REJECT);
    SAME("the reject is sent", HALF(UNACKED_NUMBERS), 5);
    SAME("its bytes", memcmp(outbound, body + 1, LINK_REJECT_BYTES), 0);
    SAME("rejection not complete", link_rejection_complete(S), false);
    commit();
    link_report(S, LIST, LINK_REPORT_DATA, 5, true);
    link_ack(S, LIST, OUT, QUEUE, 5);
    SAME("rejection complete", link_rejection_complete(S), true);
    SAME("retire, rejection dropped", link_retire(S, OUT, QUEUE, false).value, false);
    SAME("retire, rejection retained", link_retire(S, OUT, QUEUE, true).value, true);
}

static void restores(void) {
    for (int flags = 0; flags < 4; flags++) {
        start(1, 60, LINK_OTHER, 0);
        numbers[0] = 41, numbers[1] = 43, lengths[0] = 3, lengths[1] = 4;
        link_handoff_given given = {true, 0x1122334455667788u, 0x99aabbccddu, flags & 1, flags >> 1};
        link_answer a = link_restore(S, OUT, (link_reliable){50, 61, LINK_ACTIVE}, numbers, 2, lengths, 2, body + 9, 7, given, body + 30, 20);
        SAME("restore", a.refusal, 0);
        SAME("restore, record.message_number", WORD(NEXT), 50);
        SAME("restore, record.remote_number", WORD(REMOTE), 61);
        SAME("restore, released stays", WORD(RELEASED), 60);
        SAME("restore, record.disposition", BYTE(DISPOSITION), LINK_ACTIVE);
        SAME("restore, unacked", WORD(UNACKED), 2);
        SAME("restore, numbers", HALF_AT(UNACKED_NUMBERS, 1), 43);
        SAME("restore, lengths", HALF_AT(UNACKED_LENS, 1), 4);
        SAME("restore, bodies", memcmp(outbound, body + 9, 7), 0);
        SAME("restore, given.present", BYTE(HANDOFF_PRESENT), true);
        SAME("restore, given.id", WORD(HANDOFF_ID), 0x1122334455667788u);
        SAME("restore, given.number", WORD(HANDOFF_NUMBER), 0x99aabbccddu);
        SAME("restore, given.sent", BYTE(HANDOFF_SENT), flags & 1);
        SAME("restore, given.acknowledged", BYTE(HANDOFF_ACKNOWLEDGED), flags >> 1);
        SAME("restore, its length", WORD(HANDOFF_LEN), 20);
        ALL("restore, its body", 20, BYTE_AT(HANDOFF_BODY, i), body[30 + i]);
    }
    link_answer a = link_restore(S, OUT, (link_reliable){70, 0, 0}, numbers, 0, lengths, 0, body, 0, (link_handoff_given){0}, body, 0);
    SAME("restore, another handoff", a.refusal, LINK_OTHER_HANDOFF);
    SAME("restore, the record is taken", WORD(NEXT), 70);
}

/* ---- what is refused */

static link_session was;
static uint64_t list_was[LINK_LIST_WORDS];
static uint8_t outbound_was[LINK_OUTBOUND_BYTES], queue_was[LINK_QUEUE_BYTES], delivery_was[LINK_DELIVERY_BYTES];

static void remember(void) {
    was = at.s;
    memcpy(list_was, list, sizeof list), memcpy(outbound_was, outbound, sizeof outbound);
    memcpy(queue_was, queue, sizeof queue), memcpy(delivery_was, delivery, sizeof delivery);
}
static bool untouched(void) {
    return !memcmp(&was, &at.s, sizeof was) && !memcmp(list_was, list, sizeof list) && !memcmp(outbound_was, outbound, sizeof outbound)
        && !memcmp(queue_was, queue, sizeof queue) && !memcmp(delivery_was, delivery, sizeof delivery);
}
#define REFUSED(what, by, call)                                                                                                     \
    do {                                                                                                                            \
        remember();                                                                                                                 \
        link_answer a_ = call;                                                                                                      \
        SAME("refused: " what, a_.refusal, by);                                                                                     \
        SAME("refused, kind: " what, a_.kind, LINK_REFUSED);                                                                        \
        SAME("untouched: " what, untouched(), true);                                                                                \
    } while (0)

/* a session with something in each array */
static void busy(void) {
    start(2000, 9, LINK_OTHER, 3);
    link_send(S, LIST, OUT, body, 20);
    link_prepare_channel(S, (link_terms){5, true});
    data(available, 10, 0, 8), data(available, 11, 0, 8), data(available, 20, 1, 8), data(available, 21, 2, 8);
    for (uint64_t n = 1; n <= 3; n++) link_report(S, LIST, LINK_REPORT_ACK, n, false);
    link_command(S, LIST, OUT, false, true, 77, body, 30);
    memset(list, 0xee, sizeof list), memset(delivery, 0xee, sizeof delivery);
}

/* each buffer one element short, each code past its list */
static void arguments(void) {
    static const link_terms terms = {1, false};
    static const link_reliable record = {5, 0, 0};
    static const link_handoff_given none = {0};
    const link_policy policy = link_class(0).policy;
    const size_t l = LINK_LIST_WORDS, o = LINK_OUTBOUND_BYTES, q = LINK_QUEUE_BYTES, d = LINK_DELIVERY_BYTES;
    busy();
    numbers[0] = 1, lengths[0] = 5;
#define START(record, n, k, b, r, o, q) link_start(S, record, numbers, n, lengths, k, body, b, policy, body, r, outbound, o, queue, q)
    REFUSED("start, lengths", 1, START(record, 1, 0, 5, 2, o, q));
    REFUSED("start, bodies", 1, START(record, 1, 1, 4, 2, o, q));
    REFUSED("start, outbound", 1, START(record, 1, 1, 5, 2, o - 1, q));
    REFUSED("start, queue", 1, START(record, 1, 1, 5, 2, o, q - 1));
    REFUSED("start, disposition", 2, START(((link_reliable){5, 0, 5}), 1, 1, 5, 2, o, q));
    REFUSED("start, next 0", 3, START(((link_reliable){0, 0, 0}), 0, 0, 0, 2, o, q));
    REFUSED("start, remote", 3, START(((link_reliable){5, UINT64_MAX, 0}), 1, 1, 5, 2, o, q));
    REFUSED("start, no reject body", 3, START(record, 1, 1, 5, 0, o, q));
    REFUSED("start, reject body of 65", 3, START(record, 1, 1, 5, 65, o, q));
    REFUSED("send, list", 1, link_send(S, list, l - 1, OUT, body, 1));
    REFUSED("send, outbound", 1, link_send(S, LIST, outbound, o - 1, body, 1));
    REFUSED("complete, list", 1, link_complete(S, list, l - 1, (link_commit){0, 0, 0}, true));
    REFUSED("report, list", 1, link_report(S, list, l - 1, 0, 1, true));
    REFUSED("report, what", 2, link_report(S, LIST, 2, 1, true));
    REFUSED("connectivity, list", 1, link_connectivity(S, list, l - 1, 4, 0.0, true));
    REFUSED("connectivity, event 0", 2, link_connectivity(S, LIST, 0, 0.0, true));
    REFUSED("connectivity, event 6", 2, link_connectivity(S, LIST, 6, 0.0, true));
    REFUSED("find, outbound", 1, link_find(S, outbound, o - 1, 1));
    REFUSED("data, list", 1, link_data(S, list, l - 1, DELIVERY, OUT, QUEUE, away, 12, 0, body, 1));
    REFUSED("data, delivery", 1, link_data(S, LIST, delivery, d - 1, OUT, QUEUE, away, 12, 0, body, 1));
    REFUSED("data, outbound", 1, link_data(S, LIST, DELIVERY, outbound, o - 1, QUEUE, away, 12, 0, body, 1));
    REFUSED("data, queue", 1, link_data(S, LIST, DELIVERY, OUT, queue, q - 1, away, 12, 0, body, 1));
    REFUSED("data, kind", 2, link_data(S, LIST, DELIVERY, OUT, QUEUE, away, 12, 3, body, 1));
    REFUSED("consumer ready, list", 1, link_consumer_ready(S, list, l - 1, DELIVERY, OUT, QUEUE, away, 0));
    REFUSED("consumer ready, delivery", 1, link_consumer_ready(S, LIST, delivery, d - 1, OUT, QUEUE, away, 0));
    REFUSED("consumer ready, outbound", 1, link_consumer_ready(S, LIST, DELIVERY, outbound, o - 1, QUEUE, away, 0));
    REFUSED("consumer ready, queue", 1, link_consumer_ready(S, LIST, DELIVERY, OUT, queue, q - 1, away, 0));
    REFUSED("consumer ready, mode", 2, link_consumer_ready(S, LIST, DELIVERY, OUT, QUEUE, away, 5));
    REFUSED("ack, list", 1, link_ack(S, list, l - 1, OUT, QUEUE, 1));
    REFUSED("ack, outbound", 1, link_ack(S, LIST, outbound, o - 1, QUEUE, 1));
    REFUSED("ack, queue", 1, link_ack(S, LIST, OUT, queue, q - 1, 1));
    REFUSED("keepalive, list", 1, link_keepalive(S, list, l - 1));
    REFUSED("accept, outbound", 1, link_accept(S, outbound, o - 1, terms, body, 1));
    REFUSED("accept, already", 29, link_accept(S, OUT, terms, body, 1));
    REFUSED("reject, list", 1, link_reject(S, list, l - 1, OUT));
    REFUSED("reject, outbound", 1, link_reject(S, LIST, outbound, o - 1));
    REFUSED("retire, outbound", 1, link_retire(S, outbound, o - 1, QUEUE, false));
    REFUSED("retire, queue", 1, link_retire(S, OUT, queue, q - 1, false));
    REFUSED("command, list", 1, link_command(S, list, l - 1, OUT, false, false, 0, body, 0));
    REFUSED("command, outbound", 1, link_command(S, LIST, outbound, o - 1, false, false, 0, body, 0));
#define RESTORE(record, k, b, o) link_restore(S, outbound, o, record, numbers, 1, lengths, k, body, b, none, body, 0)
    REFUSED("restore, outbound", 1, RESTORE(record, 1, 5, o - 1));
    REFUSED("restore, lengths", 1, RESTORE(record, 0, 5, o));
    REFUSED("restore, bodies", 1, RESTORE(record, 1, 4, o));
    REFUSED("restore, disposition", 2, RESTORE(((link_reliable){5, 0, 5}), 1, 5, o));
    REFUSED("restore, too late", 28, RESTORE(record, 1, 5, o));
    /* calls that read a session change nothing in it */
    remember();
    link_prepare(S), link_find(S, OUT, 1), link_dirty(S), link_accepted(S), link_retired(S), link_channel_terms(S), link_rejection_complete(S);
    SAME("untouched by reading", untouched(), true);
    link_keepalive(S, LIST);
    SAME("untouched by a keepalive", memcmp(&was, &at.s, sizeof was), 0);
    guards();
}

/* A session that no calls leave is refused by 3, and neither it nor a buffer is touched. */
static void altered(void) {
    busy();
    static link_session good;
    good = at.s;
#define ALTERED(place, value)                                                                                                       \
    do {                                                                                                                            \
        at.s = good;                                                                                                                \
        place = value;                                                                                                              \
        SAME("altered: " #place, memcmp(&at.s, &good, sizeof good) != 0, true);                                                     \
        REFUSED(#place ", send", LINK_BAD_RECORD, link_send(S, LIST, OUT, body, 1));                                                \
        REFUSED(#place ", prepare", LINK_BAD_RECORD, link_prepare(S));                                                              \
        REFUSED(#place ", data", LINK_BAD_RECORD, data(available, 12, 0, 1));                                                       \
    } while (0)
    ALTERED(WORD(NEXT), 0);
    ALTERED(WORD(NEXT), 1001);
    ALTERED(WORD(UNACKED), 257);
    ALTERED(WORD(UNACKED), UINT64_MAX);
    ALTERED(WORD(REMOTE), 20);
    ALTERED(WORD(REMOTE), 10);
    ALTERED(WORD(QUEUED), 257);
    ALTERED(WORD(QUEUED), UINT64_MAX);
    ALTERED(WORD(WAITING), 513);
    ALTERED(WORD(RETRIES), 513);
    ALTERED(WORD(HANDOFF_LEN), 4097);
    ALTERED(WORD(REJECT_LEN), 0);
    ALTERED(WORD(REJECT_LEN), 65);
    ALTERED(WORD_AT(QUEUED_NUMBERS, 1), 20);
    ALTERED(WORD_AT(WAITING_NUMBERS, 0), 11);
    ALTERED(WORD_AT(RETRY_NUMBERS, 1), 1);
    ALTERED(HALF_AT(UNACKED_NUMBERS, 0), 0);
    ALTERED(HALF_AT(UNACKED_NUMBERS, 2), 1001);
    ALTERED(HALF_AT(UNACKED_LENS, 0), 65537);
    ALTERED(HALF_AT(UNACKED_LENS, 1), UINT32_MAX);
    ALTERED(HALF_AT(QUEUED_LENS, 0), 65536 + 8);
    ALTERED(BYTE_AT(QUEUED_KINDS, 1), 3);
    ALTERED(BYTE(DISPOSITION), 5);
    ALTERED(BYTE(SETUP), 4);
    ALTERED(BYTE(SETUP), 255);
    ALTERED(BYTE(SETUP), LINK_SETUP_STARTED); /* terms, and no setup that waits */
    ALTERED(BYTE(MODE), 5);
    /* every call, on one of them and on zeros */
    for (int zeros = 0; zeros < 2; zeros++) {
        at.s = good;
        WORD(UNACKED) = 257;
        if (zeros) memset(&at.s, 0, sizeof at.s);
        REFUSED("altered, send", 3, link_send(S, LIST, OUT, body, 1));
        REFUSED("altered, prepare", 3, link_prepare(S));
        REFUSED("altered, complete", 3, link_complete(S, LIST, (link_commit){0, 0, 0}, true));
        REFUSED("altered, report", 3, link_report(S, LIST, 0, 1, true));
        REFUSED("altered, connectivity", 3, link_connectivity(S, LIST, 4, 0.0, true));
        REFUSED("altered, find", 3, link_find(S, OUT, 1));
        REFUSED("altered, data", 3, data(available, 12, 0, 1));
        REFUSED("altered, consumer ready", 3, link_consumer_ready(S, LIST, DELIVERY, OUT, QUEUE, available, 0));
        REFUSED("altered, ack", 3, link_ack(S, LIST, OUT, QUEUE, 1));
        REFUSED("altered, keepalive", 3, link_keepalive(S, LIST));
        REFUSED("altered, accept", 3, link_accept(S, OUT, (link_terms){1, false}, body, 1));
        REFUSED("altered, reject", 3, link_reject(S, LIST, OUT));
        REFUSED("altered, prepare channel", 3, link_prepare_channel(S, (link_terms){1, false}));
        REFUSED("altered, retire", 3, link_retire(S, OUT, QUEUE, false));
        REFUSED("altered, command", 3, link_command(S, LIST, OUT, false, true, 1, body, 1));
        REFUSED("altered, restore", 3,
            link_restore(S, OUT, (link_reliable){5, 0, 0}, numbers, 0, lengths, 0, body, 0, (link_handoff_given){0}, body, 0));
    }
    SAME("a start after that", start(1, 0, LINK_OTHER, 0).refusal, 0);
    SAME("and a send", link_send(S, LIST, OUT, body, 1).value, 1);
    guards();
}

/* A flag is 0, or anything else. */
static void flags(void) {
    start(1, 0, LINK_OTHER, 0);
    link_send(S, LIST, OUT, body, 1);
    BYTE(PENDING) = 0x80;
    SAME("pending, by another byte", commit().events, 2);
    BYTE(UNSENT) = 0x40;
    link_ack(S, LIST, OUT, QUEUE, 1);
    SAME("unsent, by another byte", WORD(UNACKED), 1);
    link_report(S, LIST, LINK_REPORT_DATA, 1, true);
    link_ack(S, LIST, OUT, QUEUE, 1);
    SAME("not unsent", WORD(UNACKED), 0);
    link_prepare_channel(S, (link_terms){5, true});
    BYTE(INITIATOR) = 2;
    SAME("initiator, by another byte", link_channel_terms(S).terms.initiator, true);
    link_command(S, LIST, OUT, false, true, 1, body, 1);
    BYTE(HANDOFF_PRESENT) = 0xff;
    SAME("present, by another byte", link_command(S, LIST, OUT, false, true, 1, body, 1).refusal, LINK_HANDOFF_PENDING);
}

/* ---- where a session stands */

typedef struct { link_answer a; uint64_t list[64]; } said; /* what a call returned, and the head of its list */
enum { DAY = 9 };

static void day(said *all, link_session *s, uint8_t *out, uint8_t *in) { /* a day in short */
    link_answer a = link_prepare(LINK(s));
    memset(list, 0, sizeof list);
#define SAID(call) all->a = call, memcpy(all++->list, list, sizeof all->list)
#define STORES out, LINK_OUTBOUND_BYTES, in, LINK_QUEUE_BYTES
    SAID(link_complete(LINK(s), LIST, (link_commit){(uint32_t)a.value, a.second, a.third}, true));
    SAID(link_send(LINK(s), LIST, out, LINK_OUTBOUND_BYTES, body, 40));
    SAID(link_connectivity(LINK(s), LIST, LINK_REGISTERED, 5000.0, false));
    SAID(link_data(LINK(s), LIST, DELIVERY, STORES, available, 19, 0, body, 6));
    SAID(link_data(LINK(s), LIST, DELIVERY, STORES, available, 12, 0, body, 6));
    SAID(link_report(LINK(s), LIST, LINK_REPORT_DATA, 2000, true));
    SAID(link_ack(LINK(s), LIST, STORES, 2000));
    SAID(link_keepalive(LINK(s), LIST));
    SAID(link_find(LINK(s), out, LINK_OUTBOUND_BYTES, 2002));
}

/* Saved as bytes and loaded elsewhere, a session goes on as it would have. So does one whose parts do not stand in one struct. */
static void saved(void) {
    static uint8_t file[sizeof(link_session) + LINK_OUTBOUND_BYTES + LINK_QUEUE_BYTES], out[LINK_OUTBOUND_BYTES], in[LINK_QUEUE_BYTES];
    static link_session loaded;
    static said first[DAY], second[DAY];
    busy();
    link_connectivity(S, LIST, LINK_REGISTERED, 4500.0, true);
    memcpy(file, &at.s, sizeof at.s);
    memcpy(file + sizeof at.s, outbound, sizeof outbound);
    memcpy(file + sizeof at.s + sizeof outbound, queue, sizeof queue);
    day(first, &at.s, outbound, queue);
    ALL("the day is not refused", DAY, first[i].a.refusal, 0);
    SAME("a replay, too soon after the one that was saved", first[2].a.value, false);
    memcpy(&loaded, file, sizeof loaded);
    memcpy(out, file + sizeof loaded, sizeof out);
    memcpy(in, file + sizeof loaded + sizeof out, sizeof in);
    day(second, &loaded, out, in);
    SAME("loaded, the same answers and lists", memcmp(first, second, sizeof first), 0);
    SAME("loaded, the same session", memcmp(&loaded, &at.s, sizeof loaded), 0);
    SAME("loaded, the same outbound store", memcmp(out, outbound, sizeof out), 0);
    SAME("loaded, the same queue store", memcmp(in, queue, sizeof in), 0);

    static struct { uint8_t bytes[LINK_BYTES]; double time; uint32_t halves[LINK_HALVES]; double between; uint64_t words[LINK_WORDS]; } apart;
    memcpy(apart.words, at.s.words, sizeof apart.words), memcpy(apart.halves, at.s.halves, sizeof apart.halves);
    memcpy(apart.bytes, at.s.bytes, sizeof apart.bytes), apart.time = at.s.last_replay_at, apart.between = 1.5;
    link_answer a = link_send(apart.words, apart.halves, apart.bytes, &apart.time, LIST, out, sizeof out, body, 9);
    link_answer b = link_send(S, LIST, OUT, body, 9);
    SAME("apart, the answer", memcmp(&a, &b, sizeof a), 0);
    link_connectivity(apart.words, apart.halves, apart.bytes, &apart.time, LIST, LINK_REGISTERED, 9000.0, true);
    link_connectivity(S, LIST, LINK_REGISTERED, 9000.0, true);
    SAME("apart, words", memcmp(apart.words, at.s.words, sizeof apart.words), 0);
    SAME("apart, halves", memcmp(apart.halves, at.s.halves, sizeof apart.halves), 0);
    SAME("apart, bytes", memcmp(apart.bytes, at.s.bytes, sizeof apart.bytes), 0);
    SAME("apart, time", apart.time == 9000.0 && at.s.last_replay_at == 9000.0, true);
    SAME("apart, what lies between", apart.between == 1.5, true);
}

int main(void) {
    for (size_t i = 0; i < sizeof body; i++) body[i] = (uint8_t)(i * 7 + i / 256 + 1);
    sizes();
    classes();
    a_start();
    a_policy();
    sends();
    completes();
    receives();
    stages();
    restores();
    arguments();
    altered();
    flags();
    saved();
    guards();
    printf("layout: %d passed, %d failed\n", passed, failed);
    return failed != 0;
}
