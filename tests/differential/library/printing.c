/* Answers, and the state as the session's numbers have it, in the words of docs/CALLS.md. */
#include "player.h"
#include <inttypes.h>
#include <stdio.h>
#include <string.h>

static void hex(const uint8_t *at, size_t n) {
    static const char digits[] = "0123456789abcdef";
    char some[512];
    if (n == 0) putchar('-');
    for (size_t used = 0; n > 0; at++, n--) {
        some[used++] = digits[*at >> 4], some[used++] = digits[*at & 15];
        if (used == sizeof some || n == 1) fwrite(some, 1, used, stdout), used = 0;
    }
}
static void hex_part(int room, uint64_t start, uint64_t n) {
    const uint8_t *at = part(room, start, n);
    putchar(' ');
    hex(at, at ? n : 0);
}

static void print_events(const uint64_t *list, size_t events) {
    for (const uint64_t *e = list; e < list + 4 * events; e += 4) {
        printf("%" PRIu64 " %" PRIu64 " %" PRIu64 " %" PRIu64, e[0], e[1], e[2], e[3]);
        if (e[0] == LINK_MESSAGE) hex_part(DELIVERY, e[2], e[3]);
        if (e[0] == LINK_SEND_DATA) hex_part(OUTBOUND, e[2], e[3]);
        putchar('\n');
    }
}

void print_answer(int which, link_answer a) {
    fputs(calls[which].word, stdout);
    if (a.refusal) printf(" ! %" PRIu64 " %zu", a.refusal, a.events);
    else if (a.kind == LINK_PREPARED) printf(" %" PRIu64 " %" PRIu64 " %" PRIu64, a.value, a.second, a.third);
    else if (a.kind == LINK_NOT_HELD) fputs(" none", stdout);
    else if (a.kind == LINK_HELD) printf(" %" PRIu64 " %" PRIu64, a.value, a.second), hex_part(OUTBOUND, a.value, a.second);
    else printf(" %" PRIu64 " %zu", a.value, a.events);
    putchar('\n');
    print_events(lent(LIST), a.events);
}

/* ---- the state */

static int flag(uint8_t byte) { return byte != 0; }

static void print_unacked(const link_session *s) {
    uint64_t start = 0;
    printf("unacked %" PRIu64, WORD(UNACKED));
    for (uint64_t i = 0; i < WORD(UNACKED); i++) {
        uint32_t n = s->halves[LINK_HALF_UNACKED_LENS + i];
        printf(" %" PRIu32 " %d %d", s->halves[LINK_HALF_UNACKED_NUMBERS + i], flag(s->bytes[LINK_BYTE_PENDING + i]), flag(s->bytes[LINK_BYTE_UNSENT + i]));
        hex_part(OUTBOUND, start, n);
        start += n;
    }
}
static void print_queue(const link_session *s) {
    uint64_t start = 0;
    printf("\nqueue %" PRIu64, WORD(QUEUED));
    for (uint64_t i = 0; i < WORD(QUEUED); i++) {
        uint32_t n = s->halves[LINK_HALF_QUEUED_LENS + i];
        printf(" %" PRIu64 " %d", s->words[LINK_WORD_QUEUED_NUMBERS + i], s->bytes[LINK_BYTE_QUEUED_KINDS + i]);
        hex_part(QUEUE, start, n);
        start += n;
    }
}
static void print_numbers(const char *name, const uint64_t *numbers, uint64_t count) {
    printf("\n%s %" PRIu64, name, count);
    for (uint64_t i = 0; i < count; i++) printf(" %" PRIu64, numbers[i]);
}
static void print_handoff(const link_session *s) {
    if (!BYTE(HANDOFF_PRESENT)) {
        fputs("\nhandoff 0\n", stdout);
        return;
    }
    printf("\nhandoff 1 %" PRIu64 " %" PRIu64 " %d %d ", WORD(HANDOFF_ID), WORD(HANDOFF_NUMBER), flag(BYTE(HANDOFF_SENT)), flag(BYTE(HANDOFF_ACKNOWLEDGED)));
    hex(s->bytes + LINK_BYTE_HANDOFF_BODY, WORD(HANDOFF_LEN));
    putchar('\n');
}

void print_state(void) {
    const link_session *s = session();
    bool waits = BYTE(SETUP) == LINK_SETUP_WAITING;
    uint64_t last;
    memcpy(&last, &s->last_replay_at, sizeof last);
    if (s->last_replay_at != s->last_replay_at) last = UINT64_C(0x7ff8) << 48; /* any NaN */
    printf("state %" PRIu64 " %" PRIu64 " %d %d", WORD(NEXT), WORD(REMOTE), BYTE(DISPOSITION), BYTE(SETUP));
    printf(" %" PRIu32 " %d %d %d\n", waits ? HALF(TERMS) : 0, waits && BYTE(INITIATOR), BYTE(MODE), flag(BYTE(FAILED)));
    printf("clock %" PRIu32 " %" PRIu32 " %" PRIu32, HALF(GENERATION), HALF(RELEASED_GENERATION), HALF(PERSISTED_GENERATION));
    printf(" %" PRIu64 " %016" PRIx64 "\n", WORD(RELEASED), last);
    print_unacked(s);
    print_queue(s);
    print_numbers("waiting", s->words + LINK_WORD_WAITING_NUMBERS, WORD(WAITING));
    print_numbers("retry", s->words + LINK_WORD_RETRY_NUMBERS, WORD(RETRIES));
    print_handoff(s);
}
