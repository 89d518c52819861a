/* Reads a script on standard input, and answers it line by line. */
#include "player.h"
#include <stdio.h>
#include <stdlib.h>
#include <string.h>

static uint8_t *read_input(size_t *n) {
    size_t room = 1 << 16;
    uint8_t *input = malloc(room);
    for (*n = 0; input; ) {
        size_t got = fread(input + *n, 1, room - *n, stdin);
        *n += got;
        if (got == 0) return input;
        if (*n == room) input = realloc(input, room *= 2);
    }
    abort();
}

static void answer(const uint8_t *line, size_t n, size_t number) {
    int which;
    if (!read_line(line, n, &which) || !(started || which == START)) {
        printf("? %zu\n", number);
    } else if (which == STATE) {
        ask();
        print_state();
    } else if (which == POKE) {
        HALF(GENERATION) = (uint32_t)arg[0];
        remember(SESSION);
    } else {
        link_answer a = play(which);
        print_answer(which, a);
    }
}

int main(void) {
    size_t n, number = 0;
    uint8_t *at = read_input(&n), *end = at + n;
    make_rooms();
    while (at < end) { /* an unfinished last line counts */
        uint8_t *stop = memchr(at, '\n', (size_t)(end - at));
        if (!stop) stop = end;
        answer(at, (size_t)(stop - at), ++number);
        at = stop + 1;
    }
    if (fflush(stdout)) failed = true;
    return failed;
}
