/* All that is lent. A room is what a call gets as one pointer, exactly as long as named, between guards whose bytes differ from place to place and from time
 * to time. Bytes are lent at odd addresses: nothing says that they are aligned. */
#include "player.h"
#include <stdlib.h>
#include <string.h>

enum { GUARD = 256 };

typedef struct {
    size_t unit, most;         /* bytes of an element; the most bytes that are lent */
    size_t size;               /* the bytes that are lent now */
    uint8_t *memory, *before;  /* the room with its guards, and what it must be but for what a call may change */
} room;

static room rooms[ROOMS] = {
    [SESSION] = {.unit = 8, .most = sizeof(link_session), .size = sizeof(link_session)},
    [LIST] = {.unit = 8, .most = 8 * LINK_LIST_WORDS, .size = 8 * LINK_LIST_WORDS},
    [DELIVERY] = {.unit = 1, .most = LINK_DELIVERY_BYTES, .size = LINK_DELIVERY_BYTES},
    [OUTBOUND] = {.unit = 1, .most = LINK_OUTBOUND_BYTES, .size = LINK_OUTBOUND_BYTES},
    [QUEUE] = {.unit = 1, .most = LINK_QUEUE_BYTES, .size = LINK_QUEUE_BYTES},
    [BODY] = {.unit = 1, .most = LONGEST_LINE / 2},
    [NUMBERS] = {.unit = 8, .most = 8 * (LONGEST_LINE / 4)}, /* a message takes four bytes of a line or more */
    [LENGTHS] = {.unit = 8, .most = 8 * (LONGEST_LINE / 4)},
    [BODIES] = {.unit = 1, .most = LONGEST_LINE / 2},
    [REJECT] = {.unit = 1, .most = LONGEST_LINE / 2},
};
int shortened = ROOMS;
static uint64_t seed;

static size_t front(const room *m) { return m->unit == 1 ? GUARD - 1 : GUARD; }
void *lent(int r) { return rooms[r].memory + front(&rooms[r]); }
const void *remembered(int r) { return rooms[r].before + front(&rooms[r]); }
size_t size(int r) { return rooms[r].size; }
size_t length(int r) { return rooms[r].size / rooms[r].unit - (r == shortened); }
link_session *session(void) { return lent(SESSION); }

static void paint(uint8_t *at, size_t n) {
    for (size_t i = 0; i < n; i += 8) {
        seed += 0x9e3779b97f4a7c15u;
        uint64_t w = seed ^ seed >> 29;
        memcpy(at + i, &w, n - i < 8 ? n - i : 8);
    }
}
static void paint_guards(room *m) {
    paint(m->memory, front(m));
    paint(m->memory + front(m) + m->size, GUARD);
}

void remember(int r) {
    room *m = &rooms[r];
    memcpy(m->before, m->memory, front(m) + m->size + GUARD);
}

void resize(int r, size_t bytes) { rooms[r].size = bytes; }

void lend_arguments(void) {
    for (int r = BODY; r < ROOMS; r++) paint_guards(&rooms[r]), remember(r);
}
void lend_buffers(void) {
    paint(lent(LIST), size(LIST)), paint(lent(DELIVERY), size(DELIVERY));
    for (int r = 0; r < BODY; r++) paint_guards(&rooms[r]), remember(r);
}

void make_rooms(void) {
    for (int r = 0; r < ROOMS; r++) {
        rooms[r].memory = malloc(rooms[r].most + 2 * GUARD), rooms[r].before = malloc(rooms[r].most + 2 * GUARD);
        if (!rooms[r].memory || !rooms[r].before) abort();
        paint(lent(r), size(r)); /* the first session stands where anything may have stood */
    }
    lend_buffers();
}

static bool same(const room *m, size_t from, size_t n, long *at) {
    if (!memcmp(m->memory + from, m->before + from, n)) return true;
    while (m->memory[from] == m->before[from]) from++;
    *at = (long)from - (long)front(m);
    return false;
}
bool kept(int r, size_t from, long *at) {
    const room *m = &rooms[r];
    return same(m, 0, front(m), at) && same(m, front(m) + from, m->size - from + GUARD, at);
}
