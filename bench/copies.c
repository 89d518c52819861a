/* How many bytes a call moves within the library: memcpy and memmove of 1,000 bytes and more, counted by the linker's --wrap. bench/run builds it. */
#include "../include/link.h"
#include <stdio.h>
#include <string.h>

void *__real_memcpy(void *, const void *, size_t);
void *__real_memmove(void *, const void *, size_t);
static size_t bytes, times;

static void note(size_t n) {
    if (n >= 1000) {
        bytes += n;
        times += 1;
    }
}
void *__wrap_memcpy(void *to, const void *from, size_t n) {
    note(n);
    return __real_memcpy(to, from, n);
}
void *__wrap_memmove(void *to, const void *from, size_t n) {
    note(n);
    return __real_memmove(to, from, n);
}

static uint64_t list[LINK_LIST_WORDS];
static uint8_t outbound[LINK_OUTBOUND_BYTES], queue[LINK_QUEUE_BYTES], delivery[LINK_DELIVERY_BYTES];
static link_session s;
static link_answer a;

#define SHOW(name, call)                                                                                                            \
    do {                                                                                                                            \
        bytes = times = 0;                                                                                                          \
        call;                                                                                                                       \
        printf("| %-34s | %3zu | %7zu | %5.1f |\n", name, times, bytes, (double)bytes / sizeof(link_session));                     \
    } while (0)
#define S LINK(&s)
#define LIST list, LINK_LIST_WORDS
#define OUT outbound, sizeof outbound
#define QUEUE queue, sizeof queue
#define DELIVERY delivery, sizeof delivery
#define SEND(n) link_send(S, LIST, OUT, body, n)
#define DATA(k, n) link_data(S, LIST, DELIVERY, OUT, QUEUE, (link_status){true, false, false}, k, 0, body, n)

int main(void) {
    static uint8_t body[4096];
    uint64_t none[1] = {0};
    printf("| call | copies | bytes | sessions |\n|---|---|---|---|\n");
    SHOW("start", a = link_start(S, (link_reliable){1, 0, 0}, none, 0, none, 0, body, 0, link_class(2).policy, body, 3, OUT, QUEUE));
    SHOW("restore", a = link_restore(S, OUT, (link_reliable){1, 0, 0}, none, 0, none, 0, body, 0, (link_handoff_given){0}, body, 0));
    SHOW("send, 16 bytes", a = SEND(16));
    SHOW("prepare", a = link_prepare(S));
    SHOW("complete, one message", a = link_complete(S, LIST, (link_commit){(uint32_t)a.value, a.second, a.third}, true));
    SHOW("report, data accepted", a = link_report(S, LIST, LINK_REPORT_DATA, 1, true));
    SHOW("find", a = link_find(S, OUT, 1));
    SHOW("ack, one message", a = link_ack(S, LIST, OUT, QUEUE, 1));
    SHOW("data in order", a = DATA(1, 16));
    SHOW("data queued", a = DATA(3, 16));
    SHOW("data that drains one", a = DATA(2, 16));
    SHOW("data again, duplicate", a = DATA(1, 16));
    for (int i = 0; i < 255; i++) a = DATA(6 + i - 1, 16);
    SHOW("data that drains 255", a = DATA(4, 16));
    a = link_prepare(S);
    SHOW("complete, 259 acks", a = link_complete(S, LIST, (link_commit){(uint32_t)a.value, a.second, a.third}, true));
    SHOW("report, ack not accepted", a = link_report(S, LIST, LINK_REPORT_ACK, 1, false));
    SHOW("keepalive", a = link_keepalive(S, LIST));
    for (int i = 0; i < 100; i++) a = SEND(16);
    a = link_prepare(S);
    a = link_complete(S, LIST, (link_commit){(uint32_t)a.value, a.second, a.third}, true);
    SHOW("connectivity, replay of 100", a = link_connectivity(S, LIST, 4, 5000.0, true));
    SHOW("consumer ready", a = link_consumer_ready(S, LIST, DELIVERY, OUT, QUEUE, (link_status){true, false, false}, 0));
    SHOW("refused by 1", a = link_send(S, list, 1, OUT, body, 1));
    SHOW("accept", a = link_accept(S, OUT, (link_terms){7, false}, body, 16));
    SHOW("prepare channel", a = link_prepare_channel(S, (link_terms){7, true}));
    SHOW("reject", a = link_reject(S, LIST, OUT));
    SHOW("command", a = link_command(S, LIST, OUT, false, true, 1, body, 16));
    SHOW("retire", a = link_retire(S, OUT, QUEUE, true));
    SHOW("dirty", none[0] = link_dirty(S));
    return 0;
}
