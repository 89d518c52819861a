/* A counter and a controller, each with its session, over a line that loses, repeats and reorders frames, with a host that sometimes cannot save and a line
 * that sometimes does not take a frame. The counter reports changes, the controller sends commands back. On some days every save succeeds, and the ends lose
 * power now and then: they go on from what was saved. At the end comes a closing round: then every body must have come once and in order, and nothing be left
 * to acknowledge. */
#include "../include/link.h"
#include <stdio.h>
#include <stdlib.h>
#include <string.h>

enum { BODIES = 400, LONGEST = 120, ON_LINE = 500 };

static uint64_t state;
static uint32_t any(uint32_t below) { /* a small generator of its own, so that each run is the same everywhere */
    state = state * 6364136223846793005u + 1442695040888963407u;
    return (uint32_t)(state >> 33) % below;
}
static bool chance(uint32_t percent) { return any(100) < percent; }

/* ---- the line: what is under way to one end */

typedef struct { bool is_ack; uint64_t number; size_t len; uint8_t body[LONGEST]; } frame;
typedef struct { frame frames[ON_LINE]; size_t count; uint32_t loss; } line;

static void put(line *l, frame f) {
    if (chance(l->loss)) return;
    for (int copies = 1 + (l->loss && chance(15)); copies && l->count < ON_LINE; copies--) l->frames[l->count++] = f;
}
static frame take(line *l) { /* any that is under way: frames overtake each other; on a line without loss the oldest */
    size_t i = l->loss ? any((uint32_t)l->count) : 0;
    frame f = l->frames[i];
    memmove(&l->frames[i], &l->frames[i + 1], (l->count - i - 1) * sizeof f);
    l->count--;
    return f;
}

/* ---- an end: the session with its two stores, the buffers that it lends, and what its host knows */

typedef struct { /* what is saved in one write: the session, its stores, and the host's books */
    link_session session;
    uint8_t outbound[LINK_OUTBOUND_BYTES], queue[LINK_QUEUE_BYTES];
    uint64_t sent, got, acknowledged;
    uint8_t marks[BODIES + 1], booked[BODIES + 1]; /* the mark of each body that was sent, and of each that came */
} books;

typedef struct {
    const char *name;
    books now, saved;
    bool is_saved;
    link_answer a; /* of the last call */
    uint8_t delivery[LINK_DELIVERY_BYTES];
    uint64_t list[LINK_LIST_WORDS];
    line *out;
    bool asked_to_commit;
    uint64_t wrong, refused, cuts;
    double time;
} end;

#define S LINK(&e->now.session)
#define LIST e->list, LINK_LIST_WORDS
#define OUT e->now.outbound, sizeof e->now.outbound
#define QUEUE e->now.queue, sizeof e->now.queue
#define DELIVERY e->delivery, sizeof e->delivery
static const link_status available = {true, false, false};

/* body i of an end: its mark, which tells two changes with one number apart, and then what both ends can say */
static size_t make(const char *name, uint64_t i, uint8_t mark, uint8_t *body) {
    size_t len = 1 + (size_t)(i * 31 % (LONGEST - 1));
    body[0] = mark;
    for (size_t k = 1; k < len; k++) body[k] = (uint8_t)(i + k * 3 + (uint8_t)name[3]);
    return len;
}
static end counter, controller;
static end *other(end *e) { return e == &counter ? &controller : &counter; }

/* What a call listed is done after it, in the order of the list. The list is copied, for a report uses it again. */
static void act(end *e) {
    static uint64_t events[LINK_LIST_WORDS];
    size_t n = e->a.events;
    if (e->a.refusal) e->refused++;
    memcpy(events, e->list, n * 32);
    for (size_t i = 0; i < n; i++) {
        const uint64_t *v = &events[4 * i];
        frame f = {v[0] != LINK_SEND_DATA, v[1], 0, {0}};
        uint8_t must[LONGEST];
        switch (v[0]) {
        case LINK_COMMIT_REQUESTED: e->asked_to_commit = true; break;
        case LINK_MESSAGE:
            e->now.got++;
            size_t len = make(other(e)->name, e->now.got, e->delivery[v[2]], must);
            if (v[1] != e->now.got || v[3] != len || memcmp(e->delivery + v[2], must, len)) e->wrong++;
            else e->now.booked[v[1]] = must[0];
            break;
        case LINK_ACKNOWLEDGED: if (v[1] > e->now.acknowledged) e->now.acknowledged = v[1]; break;
        case LINK_SEND_DATA:
        case LINK_SEND_ACK: {
            bool taken = !e->out->loss || !chance(10);
            if (!f.is_ack) f.len = v[3], memcpy(f.body, e->now.outbound + v[2], v[3]);
            if (taken) put(e->out, f);
            e->a = link_report(S, LIST, f.is_ack ? LINK_REPORT_ACK : LINK_REPORT_DATA, v[1], taken);
            if (e->a.refusal) e->refused++;
            if (e->a.events) e->asked_to_commit = true; /* a report can list nothing but a commit request */
            break;
        }
        case LINK_ANSWER_ACK: put(e->out, f); break;
        }
    }
}

static void commit(end *e, bool saved) {
    link_answer a = link_prepare(S);
    if (saved) e->saved = e->now, e->is_saved = true; /* here a host writes to its storage */
    e->asked_to_commit = false;
    e->a = link_complete(S, LIST, (link_commit){(uint32_t)a.value, a.second, a.third}, saved);
    act(e);
}
static void send_next(end *e) {
    uint8_t body[LONGEST];
    size_t len = make(e->name, e->now.sent + 1, (uint8_t)any(256), body);
    e->a = link_send(S, LIST, OUT, body, len);
    if (e->a.refusal == LINK_UNACKED_FULL) return; /* wait for acks */
    e->now.marks[++e->now.sent] = body[0];
    if (e->a.value != e->now.sent) e->wrong++;
    act(e);
}
static void receive(end *e, frame f) {
    if (f.is_ack) e->a = link_ack(S, LIST, OUT, QUEUE, f.number);
    else e->a = link_data(S, LIST, DELIVERY, OUT, QUEUE, available, f.number, LINK_KIND_OTHER, f.body, f.len);
    act(e);
}
static void receive_all(end *e, line *l) { while (l->count) receive(e, take(l)); }
static void replay(end *e, bool force) {
    e->a = link_connectivity(S, LIST, LINK_PEER_AVAILABLE, e->time += 400.0, force);
    act(e);
}
static void begin(end *e, const char *name, line *out) {
    uint64_t none = 0;
    uint8_t none_sent = 0;
    *e = (end){.name = name, .out = out};
    e->a = link_start(S, (link_reliable){1, 0, 0}, &none, 0, &none, 0, &none_sent, 0, link_class(1).policy, (const uint8_t *)"no", 2, OUT, QUEUE);
}

static void cut(end *e) { /* the power is back: what was saved is loaded, and the clock begins anew */
    uint64_t wrong = e->wrong, cuts = e->cuts + 1;
    if (!e->is_saved) begin(e, e->name, e->out);
    else e->now = e->saved, e->time = 0.0;
    e->wrong = wrong, e->cuts = cuts;
    commit(e, true);
    replay(e, true);
}
static bool holds_nothing(end *e) {
    for (uint64_t n = 1; n <= BODIES; n++) if (link_find(S, OUT, n).kind != LINK_NOT_HELD) return false;
    return true;
}

static int passed, failed;
static void check(uint64_t seed, uint32_t loss, const char *what, bool good) {
    if (good) passed++;
    else failed++, printf("FAILED deck: seed %llu, loss %u: %s\n", (unsigned long long)seed, loss, what);
}

static void day(uint64_t seed, uint32_t loss, bool cuts) {
    static line to_controller, to_counter;
    state = seed;
    to_controller.count = to_counter.count = 0;
    to_controller.loss = to_counter.loss = loss;
    begin(&counter, "counter", &to_controller);
    begin(&controller, "controller", &to_counter);
    while (counter.now.sent < BODIES || controller.now.sent < BODIES) {
        end *e = chance(50) ? &counter : &controller;
        line *in = e == &counter ? &to_counter : &to_controller;
        switch (any(8)) {
        case 0:
        case 1: if (e->now.sent < BODIES) send_next(e); break;
        case 2: if (e->asked_to_commit) commit(e, cuts || !chance(10)); break;
        case 3: if (chance(30)) replay(e, false); break;
        default: if (in->count) receive(e, take(in)); break;
        }
        if (cuts && any(200) == 0) cut(e);
    }
    /* the closing round, for each direction: what is still on the line is lost */
    for (int turn = 0; turn < 2; turn++) {
        end *sender = turn ? &controller : &counter, *receiver = other(sender);
        line *there = sender->out, *back = receiver->out;
        there->loss = back->loss = there->count = back->count = 0;
        commit(sender, true);
        commit(receiver, true);
        back->count = there->count = 0;
        replay(sender, true);
        receive_all(receiver, there);
        commit(receiver, true);
        receive_all(sender, back);
    }
    for (int turn = 0; turn < 2; turn++) {
        end *e = turn ? &controller : &counter;
        check(seed, loss, "every body came", e->now.got == BODIES);
        check(seed, loss, "each once, in order and whole", e->wrong == 0);
        check(seed, loss, "those that were sent", memcmp(e->now.booked, other(e)->now.marks, sizeof e->now.booked) == 0);
        check(seed, loss, "nothing is left to acknowledge", holds_nothing(e));
        check(seed, loss, "the last is acknowledged", e->now.acknowledged == BODIES);
        check(seed, loss, "the power went on days with cuts alone", cuts == (e->cuts > 0));
    }
}

int main(void) {
    for (uint64_t seed = 1; seed <= 6; seed++) day(seed, (uint32_t)(seed % 4) * 15, false);
    for (uint64_t seed = 7; seed <= 12; seed++) day(seed, (uint32_t)(seed % 4) * 15, true);
    printf("deck in C: %d passed, %d failed\n", passed, failed);
    return failed != 0;
}
