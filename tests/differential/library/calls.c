/* The calls of the script, each made over include/link.h with what was read and with what is lent. */
#include "player.h"
#include <string.h>

#define S LINK(session())
#define LENT(room) lent(room), length(room)
#define RECORD ((link_reliable){arg[0], arg[1], arg[2]})
#define TERMS ((link_terms){(uint32_t)arg[0], arg[1]})
#define STATUS ((link_status){arg[0] & 1, arg[0] >> 1 & 1, arg[0] >> 2 & 1})

static link_answer start(void) {
    link_policy policy = {arg[3], arg[4], arg[5], arg[6]};
    return link_start(S, RECORD, LENT(NUMBERS), LENT(LENGTHS), LENT(BODIES), policy, LENT(REJECT), LENT(OUTBOUND), LENT(QUEUE));
}
static link_answer restore(void) {
    link_handoff_given given = {arg[3], arg[4], arg[5], arg[6], arg[7]};
    return link_restore(S, LENT(OUTBOUND), RECORD, LENT(NUMBERS), LENT(LENGTHS), LENT(BODIES), given, LENT(BODY));
}
static link_answer send(void) { return link_send(S, LENT(LIST), LENT(OUTBOUND), LENT(BODY)); }
static link_answer data(void) {
    return link_data(S, LENT(LIST), LENT(DELIVERY), LENT(OUTBOUND), LENT(QUEUE), STATUS, arg[1], arg[2], LENT(BODY));
}
static link_answer ready(void) { return link_consumer_ready(S, LENT(LIST), LENT(DELIVERY), LENT(OUTBOUND), LENT(QUEUE), STATUS, arg[1]); }
static link_answer ack(void) { return link_ack(S, LENT(LIST), LENT(OUTBOUND), LENT(QUEUE), arg[0]); }
static link_answer keepalive(void) { return link_keepalive(S, LENT(LIST)); }
static link_answer accept(void) { return link_accept(S, LENT(OUTBOUND), TERMS, LENT(BODY)); }
static link_answer reject(void) { return link_reject(S, LENT(LIST), LENT(OUTBOUND)); }
static link_answer prepare_channel(void) { return link_prepare_channel(S, TERMS); }
static link_answer command(void) { return link_command(S, LENT(LIST), LENT(OUTBOUND), arg[0], arg[1], arg[2], LENT(BODY)); }
static link_answer prepare(void) { return link_prepare(S); }
static link_answer complete(void) { return link_complete(S, LENT(LIST), (link_commit){(uint32_t)arg[0], arg[1], arg[2]}, arg[3]); }
static link_answer connectivity(void) {
    double time;
    memcpy(&time, &arg[1], sizeof time);
    return link_connectivity(S, LENT(LIST), arg[0], time, arg[2]);
}
static link_answer report(void) { return link_report(S, LENT(LIST), arg[0], arg[1], arg[2]); }
static link_answer fetch(void) { return link_find(S, LENT(OUTBOUND), arg[0]); }
static link_answer retire(void) { return link_retire(S, LENT(OUTBOUND), LENT(QUEUE), arg[0]); }

enum { L = 1 << LIST, D = 1 << DELIVERY, O = 1 << OUTBOUND, Q = 1 << QUEUE, MESSAGES = 1 << LENGTHS | 1 << BODIES };
const call calls[CALLS] = {
    [START] = {"start", "nnnnnnnrm", start, LINK_DONE, O | Q | MESSAGES, false},
    [SEND] = {"send", "b", send, LINK_NUMBER, L | O, false},
    [DATA] = {"data", "snnb", data, LINK_FLAG, L | D | O | Q, false},
    [ACK] = {"ack", "n", ack, LINK_FLAG, L | O | Q, false},
    [KEEPALIVE] = {"keepalive", "", keepalive, LINK_FLAG, L, true},
    [READY] = {"ready", "sn", ready, LINK_DONE, L | D | O | Q, false},
    [ACCEPT] = {"accept", "wfb", accept, LINK_DONE, O, false},
    [REJECT_SESSION] = {"reject", "", reject, LINK_DONE, L | O, false},
    [PREPARE_CHANNEL] = {"prepare_channel", "wf", prepare_channel, LINK_DONE, 0, false},
    [COMMAND] = {"command", "ffnb", command, LINK_DONE, L | O, false},
    [PREPARE] = {"prepare", "", prepare, LINK_PREPARED, 0, true},
    [COMPLETE] = {"complete", "wnnf", complete, LINK_DONE, L, false},
    [CONNECTIVITY] = {"connectivity", "ncf", connectivity, LINK_FLAG, L, false},
    [REPORT] = {"report", "nnf", report, LINK_DONE, L, false},
    [FETCH] = {"fetch", "n", fetch, LINK_HELD, O, true},
    [RETIRE] = {"retire", "f", retire, LINK_FLAG, O | Q, false},
    [RESTORE] = {"restore", "nnnmf?nnffb", restore, LINK_DONE, O | MESSAGES, false},
    [STATE] = {"state", "", NULL, 0, 0, true},
    [POKE] = {"poke", "gw", NULL, 0, 0, false},
};

bool wrong_code(int which) {
    switch (which) {
    case START: case RESTORE: return arg[2] > LINK_OUTBOUND_REJECT;
    case DATA: return arg[2] > LINK_KIND_REJECT;
    case READY: return arg[1] > LINK_RETIRING;
    case CONNECTIVITY: return arg[0] < LINK_DISCONNECTED || arg[0] > LINK_PEER_AVAILABLE;
    case REPORT: return arg[0] > LINK_REPORT_ACK;
    default: return false;
    }
}

bool excepted(int which, uint64_t by) {
    switch (which) {
    case DATA: return by == 4 || by == 5 || by == 9 || by == 21 || by == 24 || by == 25;
    case ACK: return by == 7;
    case COMMAND: return arg[0] && (by == 21 || by == 23 || (by >= 32 && by <= 36)); /* a restoring one */
    case RESTORE: return by == 31;
    default: return false;
    }
}
