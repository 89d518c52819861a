/* What a script cannot show: every byte that a call must leave as it was, refusal 1, and a session that a host altered. */
#include "player.h"
#include <stdarg.h>
#include <stdio.h>
#include <stdlib.h>
#include <string.h>

bool failed, started;
static uint64_t made; /* calls so far */
static const char *const names[ROOMS] = {
    "the session", "the list", "the delivery buffer", "the outbound store", "the queue store", "the body", "the numbers", "the lengths", "the bodies",
    "the reject body"
};

void fault(const char *form, ...) {
    va_list more;
    va_start(more, form);
    fputs("! ", stdout);
    vprintf(form, more);
    putchar('\n');
    va_end(more);
    failed = true;
}
static void stop(const char *why) { /* what the session says of itself cannot be followed any more */
    fault("%s", why);
    exit(1);
}

const uint8_t *part(int room, uint64_t start, uint64_t n) {
    if (start <= size(room) && n <= size(room) - start) return (const uint8_t *)lent(room) + start;
    fault("%s has no %llu bytes from %llu", names[room], (unsigned long long)n, (unsigned long long)start);
    return NULL;
}

/* ---- what a call leaves */

static void must_keep(int which, int room, size_t from) {
    long at;
    if (!kept(room, from, &at)) fault("%s: byte %ld of %s, which has %zu, was changed", calls[which].word, at, names[room], size(room));
}

static size_t handed_over(const uint64_t *list, size_t events) { /* bytes of the delivery buffer: its bodies are packed */
    uint64_t n = 0;
    for (size_t i = 0; i < events; i++)
        if (list[4 * i] == LINK_MESSAGE) n += list[4 * i + 3];
    return n <= LINK_DELIVERY_BYTES ? n : LINK_DELIVERY_BYTES;
}

/* The bytes, from its first on, that a call may have changed in a room. */
static size_t changeable(const call *c, int room, link_answer a) {
    if (room == SESSION) return c->reads ? 0 : size(room);
    if (!(c->takes >> room & 1)) return 0;
    switch (room) {
    case LIST: return 32 * a.events;
    case DELIVERY: return handed_over(lent(LIST), a.events);
    case OUTBOUND: case QUEUE: return c->reads ? 0 : size(room);
    default: return 0;
    }
}

static void must_keep_policy(int which) { /* and reject body: a start alone brings them, and no line of a script shows them */
    const link_session *was = remembered(SESSION), *is = session();
    enum { POLICY = LINK_WORD_POLICY_GAP, NUMBERS_OF_IT = LINK_WORD_REJECT_LEN + 1 - POLICY };
    if (memcmp(was->words + POLICY, is->words + POLICY, NUMBERS_OF_IT * sizeof *is->words)
        || memcmp(was->bytes + LINK_BYTE_REJECT_BODY, is->bytes + LINK_BYTE_REJECT_BODY, WORD(REJECT_LEN)))
        fault("%s: the policy or the reject body was changed", calls[which].word);
}

static void zero_past_bodies(int room, const uint32_t *lengths, uint64_t count) {
    uint64_t end = 0;
    for (uint64_t i = 0; i < count; i++) end += lengths[i];
    if (end > size(room)) stop("the bodies do not fit into their store");
    const uint8_t *store = lent(room);
    while (end + 8 <= size(room) && !memcmp(store + end, "\0\0\0\0\0\0\0", 8)) end += 8;
    while (end < size(room) && store[end] == 0) end++;
    if (end < size(room)) fault("byte %llu of %s, past the last body, is not 0", (unsigned long long)end, names[room]);
}

static void look_at_stores(void) {
    if (WORD(UNACKED) > LINK_UNACKED || WORD(QUEUED) > LINK_QUEUED || WORD(WAITING) > LINK_NUMBERS || WORD(RETRIES) > LINK_NUMBERS
        || (BYTE(HANDOFF_PRESENT) && WORD(HANDOFF_LEN) > LINK_HANDOFF_BYTES))
        stop("a count is above its array");
    zero_past_bodies(OUTBOUND, session()->halves + LINK_HALF_UNACKED_LENS, WORD(UNACKED));
    zero_past_bodies(QUEUE, session()->halves + LINK_HALF_QUEUED_LENS, WORD(QUEUED));
}

/* Words of an answer that have no meaning are 0. */
static void look_at_answer(int which, link_answer a) {
    uint64_t kind = a.refusal ? LINK_REFUSED : which == FETCH && a.kind == LINK_NOT_HELD ? LINK_NOT_HELD : calls[which].answers;
    bool value = kind != LINK_DONE && kind != LINK_NOT_HELD && kind != LINK_REFUSED, second = kind == LINK_PREPARED || kind == LINK_HELD;
    if (a.kind != kind) fault("%s: the answer is of kind %d", calls[which].word, (int)a.kind);
    if ((a.value && !value) || (a.second && !second) || (a.third && kind != LINK_PREPARED)) fault("%s: a spare word of the answer", calls[which].word);
    if (a.events > LINK_LIST_WORDS / 4) stop("more events than the list has room for");
}

/* ---- calls that must be refused and change nothing */

static void must_refuse(int which, uint64_t by, const char *why) {
    link_answer a = calls[which].make();
    look_at_answer(which, a);
    if (a.refusal != by || a.events) fault("%s, %s: refused by %d, with %zu events", calls[which].word, why, (int)a.refusal, a.events);
    for (int room = 0; room < ROOMS; room++) must_keep(which, room, 0);
}

static void try_short(int which, const char *why) {
    for (int room = 0; room < ROOMS; room++) {
        if (!(calls[which].takes >> room & 1) || size(room) == 0) continue;
        shortened = room;
        must_refuse(which, LINK_SHORT_BUFFER, why);
        shortened = ROOMS;
    }
}

/* Each makes of any session one that no calls leave. */
static void alter(uint64_t how) {
    static const struct { int word; uint64_t value; } words[] = {
        {LINK_WORD_NEXT, 0}, {LINK_WORD_NEXT, 4294967297}, {LINK_WORD_UNACKED, LINK_UNACKED + 1}, {LINK_WORD_UNACKED, UINT64_MAX},
        {LINK_WORD_REMOTE, UINT64_MAX}, {LINK_WORD_QUEUED, LINK_QUEUED + 1}, {LINK_WORD_QUEUED, UINT64_MAX}, {LINK_WORD_WAITING, LINK_NUMBERS + 1},
        {LINK_WORD_WAITING, UINT64_MAX}, {LINK_WORD_RETRIES, LINK_NUMBERS + 1}, {LINK_WORD_RETRIES, UINT64_MAX}, {LINK_WORD_POLICY_MESSAGES, 257},
        {LINK_WORD_POLICY_BYTES, 32769}, {LINK_WORD_POLICY_BODY, 16385}, {LINK_WORD_REJECT_LEN, 0}, {LINK_WORD_REJECT_LEN, LINK_REJECT_BYTES + 1}
    };
    static const struct { int byte; uint8_t value; } bytes[] = {
        {LINK_BYTE_DISPOSITION, 5}, {LINK_BYTE_SETUP, 4}, {LINK_BYTE_SETUP, 255}, {LINK_BYTE_MODE, 5}
    };
    enum { IN_WORDS = sizeof words / sizeof *words, IN_BYTES = sizeof bytes / sizeof *bytes };
    how %= IN_WORDS + IN_BYTES + 1;
    if (how < IN_WORDS) session()->words[words[how].word] = words[how].value;
    else if (how < IN_WORDS + IN_BYTES) session()->bytes[bytes[how - IN_WORDS].byte] = bytes[how - IN_WORDS].value;
    else memset(session(), 0, sizeof(link_session));
}

static void try_altered(int which, uint64_t how) {
    link_session good = *session();
    alter(how);
    remember(SESSION);
    must_refuse(which, wrong_code(which) ? LINK_UNKNOWN_CODE : LINK_BAD_RECORD, "of an altered session");
    try_short(which, "of an altered session with a short buffer");
    *session() = good;
    remember(SESSION);
}

/* ---- a call */

link_answer play(int which) {
    const call *c = &calls[which];
    lend_arguments();
    if (++made % 8 == 0) lend_buffers();
    if (made % 4 == 1) try_short(which, "with a short buffer");
    if (made % 4 == 3 && started && which != START) try_altered(which, made / 4);
    link_answer a = c->make();
    look_at_answer(which, a);
    if (which != START) must_keep_policy(which);
    bool still = a.refusal && !excepted(which, a.refusal);
    for (int room = 0; room < ROOMS; room++) {
        size_t changed = still ? 0 : changeable(c, room, a);
        must_keep(which, room, changed);
        if (changed) remember(room);
    }
    if (which == START && !a.refusal) started = true;
    if (started) look_at_stores();
    return a;
}

/* The questions have no line in a script. Their answers are what the numbers say. */
void ask(void) {
    lend_arguments();
    bool waits = BYTE(SETUP) == LINK_SETUP_WAITING;
    link_waiting_terms terms = link_channel_terms(LINK(session()));
    if (link_dirty(LINK(session())) != (HALF(GENERATION) > HALF(PERSISTED_GENERATION))) fault("dirty");
    if (link_accepted(LINK(session())) != (waits || BYTE(SETUP) == LINK_SETUP_STARTED)) fault("accepted");
    if (link_retired(LINK(session())) != (BYTE(SETUP) == LINK_SETUP_IS_RETIRED)) fault("retired");
    if (link_rejection_complete(LINK(session())) != (BYTE(DISPOSITION) == LINK_OUTBOUND_REJECT && WORD(UNACKED) == 0)) fault("rejection complete");
    if (terms.waiting != waits || terms.terms.number != HALF(TERMS) || terms.terms.initiator != (BYTE(INITIATOR) != 0)) fault("channel terms");
    for (int room = 0; room < ROOMS; room++) must_keep(STATE, room, 0);
}
