/* compare/gateway/host.c: a host over the archive, with eight tunnels in one table to a real gateway.
 *
 * usage: host [SECONDS] [WRITES]
 *    SECONDS  between a tunnel's heartbeats; 60, as KNX has it. The gateway ends a silent tunnel after twice that.
 *    WRITES   how many group writes each tunnel sends in each of two rounds; 150, so that its numbers pass 255.
 *
 * What the library leaves to a host is here: sockets, clocks, heartbeats, and which tunnel a datagram belongs to.
 * The rules of a tunnel are the library's. There are no threads: `turn` waits for all sockets and all clocks.
 * It ends with 0 if all came as expected: nothing lost, doubled, repeated or out of order. */
#define _POSIX_C_SOURCE 200809L
#include <arpa/inet.h>
#include <netinet/in.h>
#include <poll.h>
#include <stdbool.h>
#include <stdio.h>
#include <stdlib.h>
#include <string.h>
#include <sys/socket.h>
#include <time.h>
#include <unistd.h>
#include "knx.h"

enum {
    TUNNELS = 8,
    PLACES = TUNNELS + 1, /* the eight, and the ninth that the gateway refuses at first */
    GATEWAY_PORT = 3671,
    ACKNOWLEDGED_MS = 1000, /* KNX: how long a tunnelling request waits for its acknowledgement */
    ANSWERED_MS = 10000,    /* KNX: how long a control request waits for its answer */
    QUIET_MS = 1500,        /* longer than a gateway waits before it repeats: then no more comes by itself */
    NOT_FOR_TUNNELS = 12    /* the number of a datagram that is whole, but no affair of the table's */
};

typedef struct {
    int socket; /* for the control and the data of this tunnel */
    KnxEndpoint own;
    uint16_t awaited;               /* the service that answers the last control request; 0: the answer is there */
    uint16_t answer_length, status; /* of the answer */
    bool open, silent;              /* silent: sends no heartbeats */
    uint8_t channel;
    uint16_t address; /* its individual address on the bus, the source of what it writes */
    bool waiting;     /* for the acknowledgement of the request, which is kept for a repeat */
    uint8_t request[64];
    size_t request_length;
    int64_t sent_at, beat_at;    /* when the request was sent; when the next heartbeat is due */
    unsigned beats;              /* how many heartbeats it has sent */
    unsigned written, confirmed; /* the numbers of its next write and of the next confirmation */
    unsigned next[TUNNELS];      /* the number of the next write from each other tunnel */
} Tunnel;

static Tunnel tunnels[PLACES];
static uint8_t table[KNX_TABLE_SIZE]; /* all eight channels; only the library reads and writes it */
static struct sockaddr_in gateway;
static int64_t beat_ms;

static unsigned long beats, beats_answered, written, acknowledged, delivered, confirmed, foreign;

enum { LATE, GAP, STRANGE, ERROR, DUPLICATE, UNORDERED, REPEATED, GIVEN_UP, IGNORED, ASTRAY, UNASKED, WRONGS };
static const char *const wrong_names[WRONGS] = {
    [LATE] = "telegrams doubled or late",
    [GAP] = "gaps in the order of telegrams",
    [STRANGE] = "telegrams that nobody sent",
    [ERROR] = "confirmations with the error bit",
    [DUPLICATE] = "requests that the gateway repeated",
    [UNORDERED] = "requests of the gateway out of order",
    [REPEATED] = "requests that the host repeated",
    [GIVEN_UP] = "tunnels given up",
    [IGNORED] = "acknowledgements that nobody waited for",
    [ASTRAY] = "datagrams for another tunnel",
    [UNASKED] = "control datagrams that nobody asked for",
};
static unsigned long wrong[WRONGS], refused[256]; /* refused: by number */

static bool accepted(uint8_t number) {
    if (number != 0) refused[number]++;
    return number == 0;
}

static void stop(const char *what) {
    perror(what);
    exit(1);
}

static int64_t now_ms(void) {
    struct timespec t;
    if (clock_gettime(CLOCK_MONOTONIC, &t) != 0) stop("clock_gettime");
    return (int64_t)t.tv_sec * 1000 + t.tv_nsec / 1000000;
}

/* ---- sockets */

static struct sockaddr_in loopback(uint16_t port) {
    struct sockaddr_in a = {.sin_family = AF_INET, .sin_port = htons(port)};
    a.sin_addr.s_addr = htonl(INADDR_LOOPBACK);
    return a;
}

static int open_socket(KnxEndpoint *own) {
    struct sockaddr_in a = loopback(0);
    socklen_t length = sizeof a;
    int s = socket(AF_INET, SOCK_DGRAM, 0);
    if (s < 0 || bind(s, (struct sockaddr *)&a, sizeof a) != 0 || getsockname(s, (struct sockaddr *)&a, &length) != 0)
        stop("socket");
    *own = (KnxEndpoint){{127, 0, 0, 1}, ntohs(a.sin_port)};
    return s;
}

static void send_to(int s, const struct sockaddr_in *to, const uint8_t *bytes, size_t n) {
    if (sendto(s, bytes, n, 0, (const struct sockaddr *)to, sizeof *to) != (ssize_t)n) stop("sendto");
}

/* ---- telegrams */

/* Each tunnel writes to a group address of its own. */
static uint16_t group_of(const Tunnel *t) {
    return KNX_GROUP_ADDRESS(1, 2, (int)(t - tunnels));
}

/* A cEMI frame with a group write: two bytes, which number the writes of a tunnel. */
static size_t build_write(const Tunnel *t, unsigned n, uint8_t *cemi, size_t cemi_length) {
    const uint8_t value[2] = {(uint8_t)(n >> 8), (uint8_t)n};
    uint8_t ldata[32];
    KnxWritten l = knx_ldata_build_standard(KNX_CONTROL_1_STANDARD, KNX_CONTROL_2_GROUP, 0, group_of(t), 0,
                                            KNX_APCI_GROUP_VALUE_WRITE, 0, value, sizeof value, ldata, sizeof ldata);
    /* no additional information: length 0, and a pointer that is not NULL */
    return knx_cemi_build(KNX_LDATA_REQ, value, 0, ldata, l.count, cemi, cemi_length).count;
}

static Tunnel *tunnel_with_address(uint16_t address) {
    for (Tunnel *t = tunnels; t < tunnels + TUNNELS; t++)
        if (t->open && t->address == address) return t;
    return NULL;
}

/* One sender's numbers have to come one by one. A gap says that some are lost or late. */
static void take_number(unsigned n, unsigned *next, unsigned long *seen) {
    wrong[LATE] += n < *next;
    wrong[GAP] += n > *next;
    *seen += n >= *next;
    if (n >= *next) *next = n + 1;
}

/* A telegram that the table delivered. An indication is another tunnel's write, a confirmation the tunnel's own. */
static void take_telegram(Tunnel *t, const uint8_t *cemi, size_t n) {
    KnxLData l = knx_cemi_ldata_standard(cemi, n);
    if (!accepted(l.number)) return;
    bool own = l.message_code == KNX_LDATA_CON;
    Tunnel *from = own ? t : tunnel_with_address(l.source);
    bool group_write = l.tpci_kind == 0 && l.apci_code == KNX_APCI_GROUP_VALUE_WRITE && (l.control_2 & 0x80) != 0;
    if (!group_write || l.six_bit != 0 || l.end - l.start != 2 || from == NULL || (from == t) != own ||
        (!own && l.message_code != KNX_LDATA_IND) || l.destination != group_of(from)) {
        wrong[STRANGE]++;
        return;
    }
    unsigned number = (unsigned)cemi[l.start] << 8 | cemi[l.start + 1];
    if (own) {
        wrong[ERROR] += l.control_1 & 1; /* set: the bus did not take the write */
        take_number(number, &t->confirmed, &confirmed);
    } else {
        take_number(number, &t->next[from - tunnels], &delivered);
    }
}

/* ---- control */

static void take_connect_response(Tunnel *t, KnxConnectResponse r) {
    if (!accepted(r.number)) return;
    t->awaited = 0;
    t->status = r.status;
    if (r.status != KNX_STATUS_NO_ERROR) return;
    /* Tunnelling requests go to this endpoint and come from it. This host knows one address, so it has to be that. */
    if (memcmp(r.address, &gateway.sin_addr, 4) != 0 || htons(r.port) != gateway.sin_port) wrong[UNASKED]++;
    /* The channel is opened before the next datagram is read: the gateway may use it at once. */
    t->open = accepted(knx_table_open(table, sizeof table, r.channel).number);
    t->channel = r.channel;
    t->address = knx_own_address(r);
    t->beat_at = now_ms() + beat_ms;
}

static void take_disconnect_response(Tunnel *t, KnxStatus r) {
    if (!accepted(r.number)) return;
    wrong[ASTRAY] += r.channel != t->channel;
    t->awaited = 0;
    t->status = r.status;
}

/* A heartbeat's answer. Any status but 0 says that the gateway has no such tunnel any more. */
static void take_beat(const Tunnel *t, KnxStatus r) {
    if (!accepted(r.number)) return;
    wrong[ASTRAY] += r.channel != t->channel;
    beats_answered += r.status == KNX_STATUS_NO_ERROR;
}

/* The gateway ends a tunnel: agree, and forget it. */
static void take_disconnect_request(Tunnel *t, KnxDisconnectRequest r) {
    uint8_t out[8];
    if (!accepted(r.number)) return;
    if (!t->open || r.channel != t->channel) {
        wrong[ASTRAY]++;
        return;
    }
    KnxWritten w = knx_disconnect_response_build(r.channel, KNX_STATUS_NO_ERROR, out, sizeof out);
    send_to(t->socket, &gateway, out, w.count);
    knx_table_close(table, sizeof table, t->channel);
    t->open = t->waiting = false;
}

static void take_control(Tunnel *t, KnxFrame frame, const uint8_t *body, size_t n) {
    bool asked = frame.service == t->awaited;
    if (asked) t->answer_length = frame.total;
    if (frame.service == KNX_SERVICE_CONNECT_RESPONSE && asked)
        take_connect_response(t, knx_connect_response_standard(body, n));
    else if (frame.service == KNX_SERVICE_DISCONNECT_RESPONSE && asked)
        take_disconnect_response(t, knx_disconnect_response(body, n));
    else if (frame.service == KNX_SERVICE_CONNECTIONSTATE_RESPONSE)
        take_beat(t, knx_connectionstate_response(body, n));
    else if (frame.service == KNX_SERVICE_DISCONNECT_REQUEST)
        take_disconnect_request(t, knx_disconnect_request_parse(body, n));
    else
        wrong[UNASKED]++;
}

/* ---- what comes in */

/* "Repeat" and "give up": after a timeout, or after an acknowledgement with an error. Of a give-up the gateway is
 * told; its answer is not waited for, since the tunnel is gone either way. */
static void take_failure(Tunnel *t, uint8_t said) {
    uint8_t out[16];
    if (said == KNX_SAID_REPEAT) {
        wrong[REPEATED]++;
        t->sent_at = now_ms();
        send_to(t->socket, &gateway, t->request, t->request_length);
    } else if (said == KNX_SAID_GIVE_UP) { /* the table has closed the channel */
        wrong[GIVEN_UP]++;
        t->open = t->waiting = false;
        KnxWritten w = knx_disconnect_request(t->channel, t->own, out, sizeof out);
        send_to(t->socket, &gateway, out, w.count);
    }
}

/* The table finds a datagram's channel by itself and does not know on which socket it came. A host with a socket for
 * each tunnel does: the channel is the second byte in the body of a tunnelling request or acknowledgement. */
static bool is_astray(const Tunnel *t, KnxFrame frame, const uint8_t *bytes) {
    bool tunnelling = frame.service == KNX_SERVICE_TUNNELLING_REQUEST || frame.service == KNX_SERVICE_TUNNELLING_ACK;
    return tunnelling && frame.end - frame.start >= 2 && bytes[frame.start + 1] != t->channel;
}

static void take_datagram(Tunnel *t, const uint8_t *bytes, size_t n) {
    uint8_t out[16];
    KnxFrame frame = knx_frame_parse(bytes, n);
    if (is_astray(t, frame, bytes)) {
        wrong[ASTRAY]++;
        return;
    }
    KnxCalled r = knx_table_datagram_standard(table, sizeof table, bytes, n, out, sizeof out);
    if (r.number == NOT_FOR_TUNNELS) {
        take_control(t, frame, bytes + frame.start, frame.end - frame.start);
        return;
    }
    if (!accepted(r.number)) return;
    if (r.written > 0) send_to(t->socket, &gateway, out, r.written); /* the acknowledgement, before all else */
    switch (r.said) {
    case KNX_SAID_DELIVER: take_telegram(t, bytes + r.start, r.end - r.start); break;
    case KNX_SAID_DUPLICATE: wrong[DUPLICATE]++; break;
    case KNX_SAID_OUT_OF_ORDER: wrong[UNORDERED]++; break;
    case KNX_SAID_IGNORED: wrong[IGNORED]++; break;
    case KNX_SAID_SENT: acknowledged++; t->waiting = false; break;
    default: take_failure(t, r.said);
    }
}

/* What does not come from the gateway does not reach the library: its rules trust the sender. */
static void receive(Tunnel *t) {
    uint8_t bytes[1024];
    struct sockaddr_in from;
    socklen_t length = sizeof from;
    ssize_t n = recvfrom(t->socket, bytes, sizeof bytes, 0, (struct sockaddr *)&from, &length);
    if (n < 0) stop("recvfrom");
    if (from.sin_addr.s_addr != gateway.sin_addr.s_addr || from.sin_port != gateway.sin_port)
        foreign++;
    else
        take_datagram(t, bytes, (size_t)n);
}

/* ---- the loop */

static void take_clocks(Tunnel *t) {
    uint8_t out[16];
    if (t->waiting && now_ms() >= t->sent_at + ACKNOWLEDGED_MS) {
        KnxCalled r = knx_table_timeout(table, sizeof table, t->channel);
        if (accepted(r.number))
            take_failure(t, r.said);
        else
            t->waiting = false;
    }
    if (t->open && !t->silent && now_ms() >= t->beat_at) {
        KnxWritten w = knx_connectionstate_request(t->channel, t->own, out, sizeof out);
        send_to(t->socket, &gateway, out, w.count);
        t->beat_at += beat_ms;
        t->beats++;
        beats++;
    }
}

/* Waits for a datagram or a clock, at most until the given time, and takes what is there. */
static void turn(int64_t until) {
    struct pollfd ready[PLACES];
    for (int i = 0; i < PLACES; i++) {
        Tunnel *t = &tunnels[i];
        ready[i] = (struct pollfd){.fd = t->socket, .events = POLLIN};
        if (t->waiting && t->sent_at + ACKNOWLEDGED_MS < until) until = t->sent_at + ACKNOWLEDGED_MS;
        if (t->open && !t->silent && t->beat_at < until) until = t->beat_at;
    }
    int64_t wait = until - now_ms();
    if (poll(ready, PLACES, wait > 0 ? (int)wait : 0) < 0) stop("poll");
    for (int i = 0; i < PLACES; i++)
        if (ready[i].revents != 0) receive(&tunnels[i]);
    for (int i = 0; i < PLACES; i++) take_clocks(&tunnels[i]); /* after the sockets: what lies there is not late */
}

static void pass(int64_t ms) {
    for (int64_t until = now_ms() + ms; now_ms() < until;) turn(until);
}

/* Goes on until nothing new has come for a while. All may be there before: one too many would come now. */
static void settle(void) {
    unsigned long before;
    do {
        before = delivered + confirmed;
        pass(QUIET_MS);
    } while (delivered + confirmed != before);
}

/* ---- what the host does */

/* Sends a control request and waits for its answer: was it there in time, and without an error? */
static bool ask(Tunnel *t, const uint8_t *bytes, size_t n, uint16_t answer) {
    int64_t until = now_ms() + ANSWERED_MS;
    t->awaited = answer;
    send_to(t->socket, &gateway, bytes, n);
    while (t->awaited != 0 && now_ms() < until) turn(until);
    return t->awaited == 0 && t->status == KNX_STATUS_NO_ERROR;
}

static bool connect_tunnel(Tunnel *t) {
    uint8_t out[26];
    KnxWritten w = knx_connect_request(t->own, t->own, out, sizeof out);
    return ask(t, out, w.count, KNX_SERVICE_CONNECT_RESPONSE) && t->open;
}

static bool disconnect_tunnel(Tunnel *t) {
    uint8_t out[16];
    KnxWritten w = knx_disconnect_request(t->channel, t->own, out, sizeof out);
    bool agreed = ask(t, out, w.count, KNX_SERVICE_DISCONNECT_RESPONSE);
    t->open = false;
    return accepted(knx_table_close(table, sizeof table, t->channel).number) && agreed;
}

/* Sends the tunnel's next write. The table would refuse another one while this one waits. */
static void send_write(Tunnel *t) {
    uint8_t cemi[32];
    size_t n = build_write(t, t->written, cemi, sizeof cemi);
    KnxCalled r = knx_table_send(table, sizeof table, t->channel, cemi, n, t->request, sizeof t->request);
    if (!accepted(r.number)) return;
    t->request_length = r.written;
    t->waiting = true;
    t->sent_at = now_ms();
    t->written++;
    written++;
    send_to(t->socket, &gateway, t->request, t->request_length);
}

static void wait_for_acknowledgements(void) {
    for (int i = 0; i < TUNNELS; i++)
        while (tunnels[i].waiting) turn(now_ms() + ACKNOWLEDGED_MS); /* it ends: the second timeout gives up */
}

static void write_in_turn(int writes) {
    for (int n = 0; n < TUNNELS * writes; n++) {
        send_write(&tunnels[n / writes]);
        wait_for_acknowledgements();
    }
}

/* All eight wait at the same time. */
static void write_together(int writes) {
    for (int n = 0; n < writes; n++) {
        for (int i = 0; i < TUNNELS; i++) send_write(&tunnels[i]);
        wait_for_acknowledgements();
    }
}

/* To each tunnel a request that is right in every byte, but from another port than the gateway's. */
static void send_as_stranger(void) {
    uint8_t cemi[32], out[64];
    KnxEndpoint own;
    int s = open_socket(&own);
    for (int i = 0; i < TUNNELS; i++) {
        struct sockaddr_in to = loopback(tunnels[i].own.port);
        size_t n = build_write(&tunnels[i], 0, cemi, sizeof cemi);
        KnxWritten w = knx_tunneling_request(tunnels[i].channel, 0, cemi, n, out, sizeof out);
        send_to(s, &to, out, w.count);
    }
    close(s);
}

/* ---- the report */

static bool good = true;

static void expect(const char *what, unsigned long seen, unsigned long wanted) {
    printf("%s: %lu, expected %lu%s\n", what, seen, wanted, seen == wanted ? "" : "    <- WRONG");
    good = good && seen == wanted;
}

static void report(void) {
    expect("heartbeats answered", beats_answered, beats);
    expect("group writes acknowledged", acknowledged, written);
    expect("deliveries on the other seven tunnels", delivered, (TUNNELS - 1) * written);
    expect("confirmations on the sender's own tunnel", confirmed, written);
    expect("datagrams of a stranger dropped", foreign, TUNNELS);
    for (int i = 0; i < WRONGS; i++) expect(wrong_names[i], wrong[i], 0);
    unsigned long all = 0;
    for (int i = 0; i < 256; i++) {
        all += refused[i];
        if (refused[i] != 0) printf("    refused with number %d: %lu\n", i, refused[i]);
    }
    expect("datagrams, telegrams and calls that the library refused", all, 0);
}

int main(int argc, char **argv) {
    int seconds = argc > 1 ? atoi(argv[1]) : 60, writes = argc > 2 ? atoi(argv[2]) : 150;
    int opened = 0, held = 0, closed = 0;
    Tunnel *ninth = &tunnels[TUNNELS];
    if (argc > 3 || seconds < 2 || seconds > 3600 || writes < 1 || writes > 30000) {
        fprintf(stderr, "usage: host [SECONDS] [WRITES]    (2 to 3600, 1 to 30000)\n");
        return 2;
    }
    setvbuf(stdout, NULL, _IOLBF, 0); /* a line is seen when it is there, in a file too */
    gateway = loopback(GATEWAY_PORT);
    beat_ms = seconds * 1000;
    knx_table_empty(table, sizeof table);

    for (int i = 0; i < PLACES; i++) tunnels[i].socket = open_socket(&tunnels[i].own);
    for (int i = 0; i < TUNNELS; i++) opened += connect_tunnel(&tunnels[i]);
    expect("tunnels opened", opened, TUNNELS);
    expect("ninth tunnel opened", connect_tunnel(ninth), 0);
    printf("    refused with status 0x%02X in %d bytes\n", ninth->status, ninth->answer_length);
    good = good && ninth->status == KNX_STATUS_NO_MORE_CONNECTIONS && ninth->answer_length == 8;
    if (!good) {
        report();
        return 1;
    }

    send_as_stranger();
    write_in_turn(writes);
    settle();
    expect("group writes sent, one tunnel after the other", written, TUNNELS * writes);

    /* No other traffic, for longer than the gateway keeps a silent tunnel: heartbeats alone hold the eight. */
    pass(2 * beat_ms + beat_ms / 4);
    for (int i = 0; i < TUNNELS; i++) held += tunnels[i].open && tunnels[i].beats >= 2;
    expect("tunnels held by two heartbeats or more", held, TUNNELS);

    write_together(writes);
    settle();
    expect("the same, and as many from all tunnels at once", written, 2 * TUNNELS * writes);
    for (int i = 0; i < TUNNELS; i++) closed += disconnect_tunnel(&tunnels[i]);
    expect("tunnels closed", closed, TUNNELS);

    /* Now there is room for the ninth. It sends no heartbeats, until the gateway ends it. */
    ninth->silent = true;
    expect("ninth tunnel opened, now that there is room", connect_tunnel(ninth), 1);
    int64_t start = now_ms(), until = start + 2 * beat_ms + ANSWERED_MS;
    while (ninth->open && now_ms() < until) turn(until);
    printf("    without heartbeats for %d s\n", (int)((now_ms() - start) / 1000));
    expect("    ended by the gateway", !ninth->open, 1);

    report();
    printf(good ? "all as expected\n" : "NOT AS EXPECTED\n");
    return good ? 0 : 1;
}
