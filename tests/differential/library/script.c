/* A line of docs/CALLS.md, read. A call's fields are written as letters: n number, w number of 32 bits, f flag, s status, c clock, b body, r reject body,
 * m messages, g the word `generation`; ? ends the fields where the flag before it is 0. */
#include "player.h"
#include <string.h>

uint64_t arg[ARGUMENTS];

typedef struct { const uint8_t *at; size_t n; } field;
static const uint8_t *rest, *end; /* of the line; rest is null past the last field */

static bool next(field *f) {
    if (!rest) return false;
    const uint8_t *space = memchr(rest, ' ', (size_t)(end - rest));
    *f = (field){rest, (size_t)((space ? space : end) - rest)};
    rest = space ? space + 1 : NULL;
    return true;
}
static bool is(field f, const char *word) { return f.n == strlen(word) && !memcmp(f.at, word, f.n); }

static bool number(uint64_t *value, uint64_t most) {
    field f;
    if (!next(&f) || f.n == 0) return false;
    *value = 0;
    for (size_t i = 0; i < f.n; i++) {
        if (f.at[i] < '0' || f.at[i] > '9') return false;
        uint64_t digit = f.at[i] - '0';
        if (*value > (UINT64_MAX - digit) / 10) return false;
        *value = *value * 10 + digit;
    }
    return *value <= most;
}

static int digit(uint8_t c) { return c >= '0' && c <= '9' ? c - '0' : c >= 'a' && c <= 'f' ? c - 'a' + 10 : -1; }
static bool unhex(field f, uint8_t *to) {
    for (size_t i = 0; i + 1 < f.n; i += 2) {
        int high = digit(f.at[i]), low = digit(f.at[i + 1]);
        if (high < 0 || low < 0) return false;
        to[i / 2] = (uint8_t)(high << 4 | low);
    }
    return f.n % 2 == 0;
}
static bool clock_bits(uint64_t *value) {
    field f;
    uint8_t bytes[8];
    if (!next(&f) || f.n != 16 || !unhex(f, bytes)) return false;
    *value = 0;
    for (int i = 0; i < 8; i++) *value = *value << 8 | bytes[i];
    return true;
}

static bool hex(uint8_t *to, size_t *n) { /* a body: `-` is an empty one, and an empty field is none */
    field f;
    if (!next(&f) || f.n == 0) return false;
    *n = is(f, "-") ? 0 : f.n / 2;
    return is(f, "-") || unhex(f, to);
}
static bool body(int room) {
    size_t n;
    if (!hex(lent(room), &n)) return false;
    resize(room, n);
    return true;
}
static bool messages(void) {
    uint64_t count, *numbers = lent(NUMBERS), *lengths = lent(LENGTHS);
    size_t total = 0, n;
    if (!number(&count, UINT64_MAX)) return false;
    for (uint64_t i = 0; i < count; i++) { /* a line may name more than it has */
        if (!number(&numbers[i], UINT64_MAX) || !hex((uint8_t *)lent(BODIES) + total, &n)) return false;
        lengths[i] = n, total += n;
    }
    resize(NUMBERS, 8 * count), resize(LENGTHS, 8 * count), resize(BODIES, total);
    return true;
}

static bool read_field(char letter, uint64_t *value) {
    field f;
    switch (letter) {
    case 'n': return number(value, UINT64_MAX);
    case 'w': return number(value, UINT32_MAX);
    case 'f': return number(value, 1);
    case 's': return number(value, 7);
    case 'c': return clock_bits(value);
    case 'b': return body(BODY);
    case 'r': return body(REJECT);
    case 'm': return messages();
    default: return next(&f) && is(f, "generation");
    }
}

bool read_line(const uint8_t *line, size_t n, int *which) {
    field word;
    if (n > LONGEST_LINE) return false;
    rest = line, end = line + n;
    next(&word);
    for (*which = 0; *which < CALLS && !is(word, calls[*which].word);) ++*which;
    if (*which == CALLS) return false;
    memset(arg, 0, sizeof arg);
    for (int room = BODY; room < ROOMS; room++) resize(room, 0);
    uint64_t *value = arg;
    for (const char *letter = calls[*which].fields; *letter; letter++) {
        if (*letter == '?') {
            if (!value[-1]) break;
        } else {
            if (!read_field(*letter, value)) return false;
            if (strchr("nwfsc", *letter)) value++;
        }
    }
    bool none = *which == COMMAND && !arg[1] && (arg[2] || size(BODY)); /* no command has neither an id nor a body */
    return !rest && !none;
}
