/* Every function of include/knx.h, called from C. The expected bytes and numbers are typed from documents 01
 * and 02 and the KNX documents. Each call's arguments differ, so that a declaration with two of them swapped
 * fails; compare/border/swaps tries every two. */
#define _XOPEN_SOURCE 700 /* for a thread whose stack is lent */
#include "knx.h"

#include <limits.h>
#include <pthread.h>
#include <stdio.h>
#include <string.h>

static int checks;
static int failures;

static void check(int holds, const char *what, int line) {
    checks++;
    if (!holds) {
        failures++;
        printf("calls.c:%d: %s\n", line, what);
    }
}

#define CHECK(holds) check((holds), #holds, __LINE__)

/* A length that a declaration with one or two bytes for it would make 0 of. */
enum { LONG = 65536 };

/* Zeros. As data too large for an L_Data frame or a record from 254 bytes on, for a tunnelling request from
 * 65526 on; as an area a record in every two bytes. */
static const uint8_t large[LONG];

/* A buffer that is lent: filled with a pattern before the call. */
static uint8_t out[70000];

static void fill(void) {
    for (size_t i = 0; i < sizeof out; i++) out[i] = (uint8_t)(i % 251 + 1);
}

/* The buffer holds the n bytes and then the pattern. */
static int holds(const uint8_t *bytes, size_t n) {
    if (memcmp(out, bytes, n) != 0) return 0;
    for (size_t i = n; i < sizeof out; i++)
        if (out[i] != (uint8_t)(i % 251 + 1)) return 0;
    return 1;
}

static int untouched(void) { return holds(out, 0); }

#define BYTES(...) ((const uint8_t[]){__VA_ARGS__})
#define SIZE(...) (sizeof(BYTES(__VA_ARGS__)))
#define LENT(...) BYTES(__VA_ARGS__), SIZE(__VA_ARGS__)

/* ---- names and addresses: the numbers are KNX's */

static void names(void) {
    CHECK(KNX_SERVICE_CONNECT_REQUEST == 0x0205 && KNX_SERVICE_CONNECT_RESPONSE == 0x0206);
    CHECK(KNX_SERVICE_CONNECTIONSTATE_REQUEST == 0x0207 && KNX_SERVICE_CONNECTIONSTATE_RESPONSE == 0x0208);
    CHECK(KNX_SERVICE_DISCONNECT_REQUEST == 0x0209 && KNX_SERVICE_DISCONNECT_RESPONSE == 0x020A);
    CHECK(KNX_SERVICE_TUNNELLING_REQUEST == 0x0420 && KNX_SERVICE_TUNNELLING_ACK == 0x0421);
    CHECK(KNX_LDATA_REQ == 0x11 && KNX_LDATA_IND == 0x29 && KNX_LDATA_CON == 0x2E);
    CHECK(KNX_LRAW_REQ == 0x10 && KNX_LRAW_IND == 0x2D && KNX_LRAW_CON == 0x2F && KNX_LBUSMON_IND == 0x2B);
    CHECK(KNX_STATUS_NO_ERROR == 0 && KNX_STATUS_HOST_PROTOCOL_TYPE == 1 && KNX_STATUS_VERSION_NOT_SUPPORTED == 2);
    CHECK(KNX_STATUS_SEQUENCE_NUMBER == 4 && KNX_STATUS_CONNECTION_ID == 0x21 && KNX_STATUS_CONNECTION_TYPE == 0x22);
    CHECK(KNX_STATUS_CONNECTION_OPTION == 0x23 && KNX_STATUS_NO_MORE_CONNECTIONS == 0x24);
    CHECK(KNX_STATUS_DATA_CONNECTION == 0x26 && KNX_STATUS_KNX_CONNECTION == 0x27 && KNX_STATUS_TUNNELLING_LAYER == 0x29);
    CHECK(KNX_CONTROL_1_STANDARD == 0xBC && KNX_CONTROL_2_GROUP == 0xE0 && KNX_CONTROL_2_INDIVIDUAL == 0x60);
    CHECK(KNX_APCI_GROUP_VALUE_READ == 0x000 && KNX_APCI_GROUP_VALUE_RESPONSE == 0x040 && KNX_APCI_GROUP_VALUE_WRITE == 0x080);
}

/* Addresses are constant expressions: they stand in initializers and name the numbers of an enum. */
static const uint16_t groups[] = {KNX_GROUP_ADDRESS(1, 2, 3), KNX_GROUP_ADDRESS(31, 7, 255), KNX_GROUP_ADDRESS(0, 0, 1)};
static const uint16_t individuals[] = {KNX_INDIVIDUAL_ADDRESS(1, 1, 5), KNX_INDIVIDUAL_ADDRESS(15, 15, 255),
                                       KNX_INDIVIDUAL_ADDRESS(1, 2, 3)};
static const uint8_t parts[] = {KNX_GROUP_MAIN(0x0A03),      KNX_GROUP_MIDDLE(0x0A03),    KNX_GROUP_SUB(0x0A03),
                                KNX_INDIVIDUAL_AREA(0x1205), KNX_INDIVIDUAL_LINE(0x1205), KNX_INDIVIDUAL_DEVICE(0x1205)};
enum { LAMP = KNX_GROUP_ADDRESS(1, 2, 3), SWITCH = KNX_INDIVIDUAL_ADDRESS(1, 1, 5) };

static void addresses(void) {
    CHECK(groups[0] == 0x0A03 && groups[1] == 0xFFFF && groups[2] == 0x0001 && LAMP == 0x0A03);
    CHECK(individuals[0] == 0x1105 && individuals[1] == 0xFFFF && individuals[2] == 0x1203 && SWITCH == 0x1105);
    CHECK(memcmp(parts, BYTES(1, 2, 3, 1, 2, 5), 6) == 0);
    CHECK(sizeof KNX_GROUP_ADDRESS(1, 2, 3) == 2 && sizeof KNX_INDIVIDUAL_ADDRESS(1, 1, 5) == 2);
    CHECK(KNX_GROUP_MAIN(0xFFFF) == 31 && KNX_GROUP_MIDDLE(0xFFFF) == 7 && KNX_GROUP_SUB(0xFFFF) == 255);
    CHECK(KNX_INDIVIDUAL_AREA(0xFFFF) == 15 && KNX_INDIVIDUAL_LINE(0xFFFF) == 15 && KNX_INDIVIDUAL_DEVICE(0xFFFF) == 255);
    /* bits above are dropped, and reach no other part */
    CHECK(KNX_GROUP_ADDRESS(33, 10, 259) == 0x0A03 && KNX_GROUP_ADDRESS(32, 8, 256) == 0);
    CHECK(KNX_INDIVIDUAL_ADDRESS(17, 17, 261) == 0x1105 && KNX_INDIVIDUAL_ADDRESS(16, 16, 256) == 0);
    CHECK(KNX_GROUP_MAIN(0x10A03) == 1 && KNX_INDIVIDUAL_AREA(0x11105) == 1);
    /* arguments that are expressions, and an address within one */
    const unsigned none = 0, two = 2, high = 256, group = 0x0A00, individual = 0x1100;
    CHECK(KNX_GROUP_ADDRESS(two + 1, two - 1, two | 1) == 0x1903);
    CHECK(KNX_GROUP_ADDRESS(none || high, none || high, none || high) == 0x0901);
    CHECK(KNX_INDIVIDUAL_ADDRESS(two + 1, two - 1, two | 1) == 0x3103);
    CHECK(KNX_INDIVIDUAL_ADDRESS(none || high, none || high, none || high) == 0x1101);
    CHECK(KNX_GROUP_MAIN(group | two) == 1 && KNX_GROUP_MIDDLE(group | two) == 2 && KNX_GROUP_SUB(group | two) == 2);
    CHECK(KNX_INDIVIDUAL_AREA(individual | two) == 1 && KNX_INDIVIDUAL_LINE(individual | two) == 1);
    CHECK(KNX_INDIVIDUAL_DEVICE(individual | two) == 2 && 2 * KNX_GROUP_ADDRESS(1, 2, 3) == 0x1406);
    CHECK(2 * KNX_GROUP_MAIN(group) == 2 && 2 * KNX_GROUP_MIDDLE(group) == 4 && 2 * KNX_GROUP_SUB(0x0A03) == 6);
    CHECK(2 * KNX_INDIVIDUAL_AREA(0x1205) == 2 && 2 * KNX_INDIVIDUAL_LINE(0x1205) == 4 && 2 * KNX_INDIVIDUAL_DEVICE(0x1205) == 10);
    /* every address, taken apart and put together again */
    unsigned same = 0;
    for (unsigned a = 0; a <= 0xFFFF; a++)
        same += KNX_GROUP_ADDRESS(KNX_GROUP_MAIN(a), KNX_GROUP_MIDDLE(a), KNX_GROUP_SUB(a)) == a &&
                KNX_INDIVIDUAL_ADDRESS(KNX_INDIVIDUAL_AREA(a), KNX_INDIVIDUAL_LINE(a), KNX_INDIVIDUAL_DEVICE(a)) == a;
    CHECK(same == 65536);
}

/* ---- reading */

static int frame_is(KnxFrame f, size_t start, size_t end, unsigned service, unsigned total, unsigned number) {
    return f.start == start && f.end == end && f.service == service && f.total == total && f.number == number && f.offset == 0;
}

/* All fields are 0 but the number and the offset of what decided it; so in what follows. */
static int frame_refused(KnxFrame f, unsigned number, size_t offset) {
    return f.number == number && f.offset == offset && f.start == 0 && f.end == 0 && f.service == 0 && f.total == 0;
}

static void frames(void) {
    CHECK(frame_refused(knx_frame_parse(BYTES(0), 0), 1, 0));
    CHECK(frame_refused(knx_frame_parse(LENT(0x06, 0x10, 0x04, 0x20, 0x00)), 1, 5));
    CHECK(frame_refused(knx_frame_parse(LENT(0x05, 0x20, 0x04, 0x20, 0x00, 0x06)), 2, 0));
    CHECK(frame_refused(knx_frame_parse(LENT(0x06, 0x20, 0x04, 0x20, 0x00, 0x06)), 3, 1));
    CHECK(frame_refused(knx_frame_parse(LENT(0x06, 0x10, 0xFF, 0xFF, 0x00, 0x06)), 4, 2));
    CHECK(frame_refused(knx_frame_parse(LENT(0x06, 0x10, 0x04, 0x20, 0x00, 0x05)), 2, 4));
    CHECK(frame_refused(knx_frame_parse(LENT(0x06, 0x10, 0x04, 0x20, 0x00, 0x07)), 2, 4));
    CHECK(frame_refused(knx_frame_parse(LENT(0x06, 0x10, 0x04, 0x20, 0x00, 0x05, 0xEE, 0xEE)), 2, 4));
    CHECK(frame_refused(knx_frame_parse(large, LONG), 2, 0));
    CHECK(frame_is(knx_frame_parse(LENT(0x06, 0x10, 0x04, 0x20, 0x00, 0x06)), 6, 6, 0x0420, 6, 0));
    CHECK(frame_is(knx_frame_parse(LENT(0x06, 0x10, 0x04, 0x21, 0x00, 0x0B, 0x04, 0x15, 0x07, 0x00, 0x00, 0xEE, 0xEE)),
                   6, 11, 0x0421, 11, 0));
}

static void hpais(void) {
    KnxHpai h = knx_hpai_parse(LENT(0x08, 0x02, 0xC0, 0xA8, 0x01, 0x0A, 0x0E, 0x57, 0xEE));
    CHECK(h.number == 0 && h.offset == 0 && h.structure_length == 8 && h.host_protocol == 2 && h.port == 3671);
    CHECK(memcmp(h.address, BYTES(192, 168, 1, 10), 4) == 0);
    h = knx_hpai_parse(LENT(0x08, 0x01, 0xC0, 0xA8, 0x01, 0x0A, 0x0E));
    CHECK(h.number == 1 && h.offset == 7 && h.structure_length == 0 && h.host_protocol == 0 && h.port == 0);
    CHECK(memcmp(h.address, BYTES(0, 0, 0, 0), 4) == 0);
    h = knx_hpai_parse(LENT(0x07, 0x01, 0xC0, 0xA8, 0x01, 0x0A, 0x0E, 0x57));
    CHECK(h.number == 2 && h.offset == 0 && h.port == 0);
    h = knx_hpai_parse(BYTES(8), 0);
    CHECK(h.number == 1 && h.offset == 0 && h.port == 0);
}

static void connect_responses(void) {
    KnxConnectResponse r =
        knx_connect_response(LENT(0x15, 0x24, 0x08, 0x01, 0x0A, 0x00, 0x00, 0x07, 0xC3, 0x50, 0x04, 0x05, 0x11, 0x0A));
    CHECK(r.number == 0 && r.channel == 0x15 && r.status == 0x24 && r.structure_length == 8 && r.host_protocol == 1);
    CHECK(r.offset == 0);
    CHECK(memcmp(r.address, BYTES(10, 0, 0, 7), 4) == 0 && r.port == 50000);
    CHECK(memcmp(r.crd, BYTES(0x04, 0x05, 0x11, 0x0A), 4) == 0);
    r = knx_connect_response(LENT(0x15, 0x00, 0x08, 0x01, 0x0A, 0x00, 0x00, 0x07, 0xC3, 0x50, 0x04, 0x05, 0x11));
    CHECK(r.number == 1 && r.offset == 13 && r.channel == 0 && r.port == 0 && memcmp(r.crd, BYTES(0, 0, 0, 0), 4) == 0);
    r = knx_connect_response(LENT(0x15, 0x00, 0x09, 0x01, 0x0A, 0x00, 0x00, 0x07, 0xC3, 0x50, 0x04, 0x05, 0x11, 0x0A));
    CHECK(r.number == 2 && r.offset == 2 && r.channel == 0 && r.host_protocol == 0);
}

/* All fields are 0 but these. */
static int told(KnxConnectResponse r, unsigned channel, unsigned status, unsigned number, size_t offset) {
    return r.channel == channel && r.status == status && r.number == number && r.offset == offset &&
           r.structure_length == 0 && r.host_protocol == 0 && memcmp(r.address, BYTES(0, 0, 0, 0), 4) == 0 &&
           r.port == 0 && memcmp(r.crd, BYTES(0, 0, 0, 0), 4) == 0;
}

/* A response of a gateway that refuses. */
static int bare_response(KnxConnectResponse r, unsigned channel, unsigned status) { return told(r, channel, status, 0, 0); }

static int response_refused(KnxConnectResponse r, unsigned number, size_t offset) { return told(r, 0, 0, number, offset); }

/* In KNX's own form, as a real gateway sends them. */
static void connect_responses_standard(void) {
    KnxConnectResponse r = knx_connect_response_standard(
        LENT(0x15, 0x00, 0x08, 0x02, 0x0A, 0x00, 0x00, 0x07, 0xC3, 0x50, 0x04, 0x05, 0x11, 0x0A, 0xEE));
    CHECK(r.number == 0 && r.channel == 0x15 && r.status == 0 && r.structure_length == 8 && r.host_protocol == 2 && r.offset == 0);
    CHECK(memcmp(r.address, BYTES(10, 0, 0, 7), 4) == 0 && r.port == 50000);
    CHECK(memcmp(r.crd, BYTES(0x04, 0x05, 0x11, 0x0A), 4) == 0);
    CHECK(knx_own_address(r) == 0x110A);
    r = knx_connect_response_standard(LENT(1, 0, 8, 1, 127, 0, 0, 1, 0x0E, 0x57, 4, 4, 0xFF, 0xFE));
    CHECK(r.number == 0 && r.channel == 1 && r.port == 3671 && knx_own_address(r) == KNX_INDIVIDUAL_ADDRESS(15, 15, 254));
    /* a gateway that refuses: channel and status, whatever follows, a whole response too */
    CHECK(bare_response(knx_connect_response_standard(LENT(0x00, 0x24)), 0, KNX_STATUS_NO_MORE_CONNECTIONS));
    CHECK(bare_response(knx_connect_response_standard(LENT(0x15, 0x01, 0xEE)), 0x15, 1));
    CHECK(bare_response(knx_connect_response_standard(LENT(0x15, 0x22, 0x08, 0x01, 0x0A, 0x00, 0x00, 0x07, 0xC3, 0x50)), 0x15, 0x22));
    r = knx_connect_response_standard(
        LENT(0x15, 0xFF, 0x07, 0x01, 0x0A, 0x00, 0x00, 0x07, 0xC3, 0x50, 0x04, 0x05, 0x11, 0x0A));
    CHECK(bare_response(r, 0x15, 0xFF) && knx_own_address(r) == 0);
    CHECK(response_refused(knx_connect_response(LENT(0x00, 0x24)), 1, 2));
    /* refused: too short, which is asked first, then another length of the endpoint */
    CHECK(response_refused(knx_connect_response_standard(BYTES(0x15, 0x24), 0), 1, 0));
    CHECK(response_refused(knx_connect_response_standard(BYTES(0x15, 0x24), 1), 1, 1));
    CHECK(response_refused(knx_connect_response_standard(LENT(0x15, 0x00)), 1, 2));
    r = knx_connect_response_standard(LENT(0x15, 0x00, 0x09, 0x01, 0x0A, 0x00, 0x00, 0x07, 0xC3, 0x50, 0x04, 0x05, 0x11));
    CHECK(response_refused(r, 1, 13) && knx_own_address(r) == 0);
    r = knx_connect_response_standard(LENT(0x15, 0x00, 0x09, 0x01, 0x0A, 0x00, 0x00, 0x07, 0xC3, 0x50, 0x04, 0x05, 0x11, 0x0A));
    CHECK(response_refused(r, 2, 2) && knx_own_address(r) == 0);
    CHECK(response_refused(knx_connect_response_standard(large, LONG), 2, 2));
    CHECK(response_refused(knx_connect_response(large, LONG), 2, 2));
    CHECK(response_refused(knx_connect_response(BYTES(0x15, 0x24), 0), 1, 0));
    /* an address is that of the response that is handed in, whatever stands in its other fields */
    r = (KnxConnectResponse){.offset = 16, .channel = 1, .status = 2, .structure_length = 3, .host_protocol = 4, .address = {5, 6, 7, 8},
                             .port = 0x090A, .crd = {11, 12, 13, 14}, .number = 15};
    CHECK(knx_own_address(r) == 0x0D0E);
}

static int status_is(KnxStatus s, unsigned channel, unsigned status, unsigned number) {
    return s.channel == channel && s.status == status && s.number == number && s.offset == 0;
}

static int status_refused(KnxStatus s, unsigned number, size_t offset) {
    return s.number == number && s.offset == offset && s.channel == 0 && s.status == 0;
}

static void statuses(void) {
    CHECK(status_is(knx_connectionstate_response(LENT(0x15, 0x00)), 0x15, KNX_STATUS_NO_ERROR, 0));
    CHECK(status_is(knx_connectionstate_response(LENT(0x15, 0x21, 0xEE)), 0x15, KNX_STATUS_CONNECTION_ID, 0));
    CHECK(status_is(knx_connectionstate_response(LENT(0xFF, 0xFE)), 0xFF, 0xFE, 0));
    CHECK(status_is(knx_connectionstate_response(large, LONG), 0, 0, 0));
    CHECK(status_refused(knx_connectionstate_response(BYTES(0x15, 0x21), 1), 1, 1));
    CHECK(status_refused(knx_connectionstate_response(BYTES(0x15, 0x21), 0), 1, 0));
    CHECK(status_is(knx_disconnect_response(LENT(0x2A, 0x00)), 0x2A, KNX_STATUS_NO_ERROR, 0));
    CHECK(status_is(knx_disconnect_response(LENT(0x2A, 0x26, 0xEE)), 0x2A, KNX_STATUS_DATA_CONNECTION, 0));
    CHECK(status_is(knx_disconnect_response(LENT(0xFE, 0xFF)), 0xFE, 0xFF, 0));
    CHECK(status_is(knx_disconnect_response(large, LONG), 0, 0, 0));
    CHECK(status_refused(knx_disconnect_response(BYTES(0x2A, 0x26), 1), 1, 1));
    CHECK(status_refused(knx_disconnect_response(BYTES(0x2A, 0x26), 0), 1, 0));
}

static int disconnect_refused(KnxDisconnectRequest d, unsigned number, size_t offset) {
    return d.number == number && d.offset == offset && d.channel == 0 && d.structure_length == 0 && d.host_protocol == 0 &&
           memcmp(d.address, BYTES(0, 0, 0, 0), 4) == 0 && d.port == 0;
}

static void disconnect_requests(void) {
    /* the second byte and the protocol may be any */
    KnxDisconnectRequest d = knx_disconnect_request_parse(LENT(0x15, 0xEE, 0x08, 0x02, 0xC0, 0xA8, 0x01, 0x0A, 0x0E, 0x57, 0xEE));
    CHECK(d.number == 0 && d.channel == 0x15 && d.structure_length == 8 && d.host_protocol == 2 && d.port == 3671 && d.offset == 0);
    CHECK(memcmp(d.address, BYTES(192, 168, 1, 10), 4) == 0);
    d = knx_disconnect_request_parse(LENT(0x2A, 0x00, 0x08, 0x01, 0x00, 0x00, 0x00, 0x00, 0x00, 0x00));
    CHECK(d.number == 0 && d.channel == 0x2A && d.structure_length == 8 && d.host_protocol == 1 && d.port == 0);
    CHECK(memcmp(d.address, BYTES(0, 0, 0, 0), 4) == 0);
    CHECK(disconnect_refused(knx_disconnect_request_parse(BYTES(0x15), 0), 1, 0));
    CHECK(disconnect_refused(knx_disconnect_request_parse(LENT(0x15, 0x00)), 1, 2));
    CHECK(disconnect_refused(knx_disconnect_request_parse(LENT(0x15, 0x00, 0x08, 0x01, 0xC0, 0xA8, 0x01, 0x0A, 0x0E)), 1, 9));
    CHECK(disconnect_refused(knx_disconnect_request_parse(LENT(0x15, 0x00, 0x09, 0x01, 0xC0, 0xA8, 0x01, 0x0A, 0x0E)), 1, 9));
    CHECK(disconnect_refused(knx_disconnect_request_parse(LENT(0x15, 0x00, 0x09, 0x01, 0xC0, 0xA8, 0x01, 0x0A, 0x0E, 0x57)), 2, 2));
    CHECK(disconnect_refused(knx_disconnect_request_parse(LENT(0x15, 0x08, 0x07, 0x01, 0xC0, 0xA8, 0x01, 0x0A, 0x0E, 0x57)), 2, 2));
    CHECK(disconnect_refused(knx_disconnect_request_parse(large, LONG), 2, 2));
}

static int ldata_refused(KnxLData l, unsigned number, size_t offset) {
    return l.number == number && l.offset == offset && l.start == 0 && l.end == 0 && l.source == 0 &&
           l.destination == 0 && l.apci_code == 0 && l.message_code == 0 && l.control_1 == 0 && l.control_2 == 0 && l.npdu_length == 0 && l.tpci_kind == 0 &&
           l.tpci_sequence == 0 && l.apci_named == 0 && l.control_code == 0 && l.six_bit == 0;
}

static void cemis(void) {
    /* group write, data 2A, behind two bytes of additional information */
    KnxLData l = knx_cemi_ldata(LENT(0x29, 0x02, 0xAA, 0xBB, 0x94, 0xE0, 0x11, 0x05, 0x08, 0x03, 0x03, 0x00, 0x80, 0x2A));
    CHECK(l.number == 0 && l.offset == 0 && l.message_code == 0x29 && l.control_1 == 0x94 && l.control_2 == 0xE0);
    CHECK(l.source == 0x1105 && l.destination == 0x0803 && l.npdu_length == 3);
    CHECK(l.tpci_kind == 0 && l.tpci_sequence == 0 && l.apci_named == 1 && l.apci_code == 0x080 && l.six_bit == 0);
    CHECK(l.start == 13 && l.end == 14);
    /* the same with L = 4, and L = 1 with a six-bit 1 */
    CHECK(ldata_refused(knx_cemi_ldata(LENT(0x29, 0x00, 0x94, 0xE0, 0x11, 0x05, 0x08, 0x03, 0x04, 0x00, 0x80, 0x2A)), 2, 8));
    CHECK(ldata_refused(knx_cemi_ldata(LENT(0x29, 0x00, 0x94, 0xE0, 0x11, 0x05, 0x08, 0x03, 0x01, 0x00, 0x81)), 2, 8));
    /* the same with L = 2: group write, no data, six-bit 1 */
    l = knx_cemi_ldata(LENT(0x11, 0x00, 0x94, 0xE0, 0x11, 0x05, 0x08, 0x03, 0x02, 0x00, 0x81));
    CHECK(l.number == 0 && l.message_code == 0x11 && l.apci_code == 0x080 && l.six_bit == 1 && l.start == 11 && l.end == 11);
    /* APCI bytes 02 C0, and a numbered data packet with sequence 5 and code 0x100 */
    l = knx_cemi_ldata(LENT(0x2E, 0x00, 0x94, 0xE0, 0x11, 0x05, 0x08, 0x03, 0x02, 0x02, 0xC0));
    CHECK(l.number == 0 && l.apci_named == 0 && l.apci_code == 0x2C0 && l.message_code == 0x2E);
    l = knx_cemi_ldata(LENT(0x29, 0x00, 0x94, 0x60, 0x11, 0x05, 0x11, 0x03, 0x02, 0x55, 0x3F));
    CHECK(l.number == 0 && l.tpci_kind == 1 && l.tpci_sequence == 5 && l.apci_named == 1 && l.apci_code == 0x100 && l.six_bit == 63);
    /* a control packet: data from 8 on, no APCI */
    l = knx_cemi_ldata(LENT(0x29, 0x00, 0x94, 0x60, 0x11, 0x05, 0x11, 0x03, 0x01, 0xC6, 0xFF));
    CHECK(l.number == 0 && l.tpci_kind == 3 && l.tpci_sequence == 1 && l.apci_named == 0 && l.apci_code == 0 && l.six_bit == 0);
    CHECK(l.control_code == 0);
    CHECK(l.start == 10 && l.end == 10);
    CHECK(ldata_refused(knx_cemi_ldata(LENT(0x29)), 1, 1));
    CHECK(ldata_refused(knx_cemi_ldata(LENT(0x99, 0x00)), 6, 0));
    CHECK(ldata_refused(knx_cemi_ldata(LENT(0x2D, 0x00, 0x94)), 6, 0));
    CHECK(ldata_refused(knx_cemi_ldata(LENT(0x29, 0x03, 0xAA, 0xBB)), 2, 1));
    CHECK(ldata_refused(knx_cemi_ldata(LENT(0x29, 0x00, 0x94, 0xE0, 0x11, 0x05, 0x08, 0x03, 0x01, 0x00)), 1, 10));
    /* behind two bytes of additional information: none, too few, L = 4 and L = 1 */
    CHECK(ldata_refused(knx_cemi_ldata(LENT(0x29, 0x02, 0xAA, 0xBB)), 1, 4));
    CHECK(ldata_refused(knx_cemi_ldata(LENT(0x29, 0x02, 0xAA, 0xBB, 0x94, 0xE0, 0x11, 0x05, 0x08, 0x03, 0x02, 0x00)), 1, 12));
    CHECK(ldata_refused(knx_cemi_ldata(LENT(0x29, 0x02, 0xAA, 0xBB, 0x94, 0xE0, 0x11, 0x05, 0x08, 0x03, 0x04, 0x00, 0x80, 0x2A)), 2, 10));
    CHECK(ldata_refused(knx_cemi_ldata(LENT(0x29, 0x02, 0xAA, 0xBB, 0x94, 0xE0, 0x11, 0x05, 0x08, 0x03, 0x01, 0x00, 0x81)), 2, 10));
    CHECK(ldata_refused(knx_cemi_ldata(BYTES(0x29), 0), 1, 0));
    CHECK(ldata_refused(knx_cemi_ldata(large, LONG), 6, 0));
}

/* In the standard count, as a real gateway sends them. */
static void cemis_standard(void) {
    /* a switch: group write, no data, six-bit 1 */
    KnxLData l = knx_cemi_ldata_standard(LENT(0x29, 0x00, 0xBC, 0xE0, 0x11, 0x05, 0x08, 0x03, 0x01, 0x00, 0x81));
    CHECK(l.number == 0 && l.offset == 0 && l.message_code == 0x29 && l.control_1 == 0xBC && l.control_2 == 0xE0);
    CHECK(l.source == 0x1105 && l.destination == 0x0803 && l.npdu_length == 1);
    CHECK(l.tpci_kind == 0 && l.tpci_sequence == 0 && l.apci_named == 1 && l.apci_code == 0x080 && l.six_bit == 1);
    CHECK(l.control_code == 0 && l.start == 11 && l.end == 11);
    /* 21.00 degrees, behind a timestamp */
    l = knx_cemi_ldata_standard(
        LENT(0x29, 0x04, 0x04, 0x02, 0x12, 0x34, 0xBC, 0xE0, 0x11, 0x05, 0x08, 0x03, 0x03, 0x00, 0x80, 0x0C, 0x1A));
    CHECK(l.number == 0 && l.npdu_length == 3 && l.apci_code == 0x080 && l.start == 15 && l.end == 17);
    /* connect, disconnect, ack and nak of sequence 5 */
    l = knx_cemi_ldata_standard(LENT(0x29, 0x00, 0xB0, 0x60, 0x11, 0x05, 0x12, 0x0A, 0x00, 0x80));
    CHECK(l.number == 0 && l.tpci_kind == 2 && l.control_code == KNX_CONTROL_CONNECT && l.apci_named == 0);
    CHECK(l.start == 10 && l.end == 10 && l.apci_code == 0 && l.six_bit == 0);
    l = knx_cemi_ldata_standard(LENT(0x29, 0x00, 0xB0, 0x60, 0x11, 0x05, 0x12, 0x0A, 0x00, 0x81));
    CHECK(l.number == 0 && l.tpci_kind == 2 && l.tpci_sequence == 0 && l.control_code == KNX_CONTROL_DISCONNECT);
    l = knx_cemi_ldata_standard(LENT(0x29, 0x00, 0xB0, 0x60, 0x11, 0x05, 0x12, 0x0A, 0x00, 0xD6));
    CHECK(l.number == 0 && l.tpci_kind == 3 && l.tpci_sequence == 5 && l.control_code == KNX_CONTROL_ACK && l.apci_named == 0);
    l = knx_cemi_ldata_standard(LENT(0x29, 0x00, 0xB0, 0x60, 0x11, 0x05, 0x12, 0x0A, 0x00, 0xD7, 0xEE));
    CHECK(l.number == 0 && l.tpci_kind == 3 && l.control_code == KNX_CONTROL_NAK && l.apci_code == 0 && l.end == 10);
    /* refused: too short, L of 0 and 255, a control packet with L = 1, an end past the input, and cEMI's own */
    CHECK(ldata_refused(knx_cemi_ldata_standard(LENT(0x29, 0x00, 0xBC, 0xE0, 0x11, 0x05, 0x08, 0x03, 0x01)), 1, 9));
    CHECK(ldata_refused(knx_cemi_ldata_standard(LENT(0x29, 0x00, 0xBC, 0xE0, 0x11, 0x05, 0x08, 0x03, 0x01, 0x00)), 2, 8));
    CHECK(ldata_refused(knx_cemi_ldata_standard(LENT(0x29, 0x00, 0xBC, 0xE0, 0x11, 0x05, 0x08, 0x03, 0x00, 0x00, 0x81)), 2, 8));
    CHECK(ldata_refused(knx_cemi_ldata_standard(LENT(0x29, 0x00, 0xB0, 0x60, 0x11, 0x05, 0x12, 0x0A, 0x01, 0x80, 0x00)), 2, 8));
    CHECK(ldata_refused(knx_cemi_ldata_standard(LENT(0x29, 0x00, 0xBC, 0xE0, 0x11, 0x05, 0x08, 0x03, 0x03, 0x00, 0x80, 0x0C)), 2, 8));
    CHECK(ldata_refused(knx_cemi_ldata_standard(LENT(0x2D, 0xFF)), 6, 0));
    CHECK(ldata_refused(knx_cemi_ldata_standard(LENT(0x29, 0x03, 0xAA, 0xBB)), 2, 1));
    CHECK(ldata_refused(knx_cemi_ldata_standard(LENT(0x29)), 1, 1));
    CHECK(ldata_refused(knx_cemi_ldata_standard(LENT(0x99, 0x00)), 6, 0));
    /* behind a timestamp: too short, an end past the input, and a control packet with L = 1 */
    CHECK(ldata_refused(knx_cemi_ldata_standard(LENT(0x29, 0x04, 0x04, 0x02, 0x12, 0x34, 0xBC, 0xE0, 0x11)), 1, 9));
    CHECK(ldata_refused(knx_cemi_ldata_standard(
        LENT(0x29, 0x04, 0x04, 0x02, 0x12, 0x34, 0xBC, 0xE0, 0x11, 0x05, 0x08, 0x03, 0x03, 0x00, 0x80, 0x0C)), 2, 12));
    CHECK(ldata_refused(knx_cemi_ldata_standard(
        LENT(0x29, 0x04, 0x04, 0x02, 0x12, 0x34, 0xB0, 0x60, 0x11, 0x05, 0x12, 0x0A, 0x01, 0x80, 0x00)), 2, 12));
    uint8_t longest[2 + 263] = {0x29, 0x00, 0x3C, 0xE0, 0x11, 0x05, 0x08, 0x03, 254, 0x00, 0x80};
    l = knx_cemi_ldata_standard(longest, 2 + 262);
    CHECK(l.number == 0 && l.start == 11 && l.end == 2 + 262);
    longest[8] = 255;
    CHECK(ldata_refused(knx_cemi_ldata_standard(longest, sizeof longest), 2, 8));
    /* the longest area, and an L_Data without a byte and with L = 0 */
    longest[1] = 255;
    CHECK(ldata_refused(knx_cemi_ldata_standard(longest, 257), 1, 257));
    CHECK(ldata_refused(knx_cemi_ldata_standard(longest, sizeof longest), 2, 263));
    CHECK(ldata_refused(knx_cemi_ldata(longest, 264), 1, 264));
}

/* ---- additional information */

/* Three records: a timestamp, one without a name, an extended timestamp. */
#define AREA 0x04, 0x02, 0x12, 0x34, 0x99, 0x01, 0xAA, 0x06, 0x04, 0x80, 0x01, 0x02, 0x03

/* An L_Data frame: group write, data 2A. */
#define LDATA 0x94, 0xE0, 0x11, 0x05, 0x08, 0x03, 0x03, 0x00, 0x80, 0x2A

static int part_is(KnxPart p, size_t start, size_t end, unsigned number) {
    return p.start == start && p.end == end && p.number == number && p.offset == 0;
}

static int part_refused(KnxPart p, unsigned number, size_t offset) {
    return p.number == number && p.offset == offset && p.start == 0 && p.end == 0;
}

static int count_is(KnxCount c, size_t count, unsigned number) {
    return c.count == count && c.number == number && c.offset == 0;
}

/* At the type byte of the record that is broken. */
static int count_refused(KnxCount c, size_t offset) { return c.number == 14 && c.offset == offset && c.count == 0; }

static int record_is(KnxAdditionalInfo r, unsigned type, unsigned named, size_t start, size_t end) {
    return r.number == 0 && r.found == 1 && r.info_type == type && r.named == named && r.start == start && r.end == end &&
           r.offset == 0;
}

/* A record without a timestamp. */
static int plain(KnxAdditionalInfo r, unsigned type, unsigned named, size_t start, size_t end) {
    return record_is(r, type, named, start, end) && r.timestamped == 0 && r.timestamp == 0;
}

static int stamped(KnxAdditionalInfo r, unsigned type, uint32_t timestamp, size_t start, size_t end) {
    return record_is(r, type, 1, start, end) && r.timestamped == 1 && r.timestamp == timestamp;
}

/* There is none, which is no refusal, or a refusal. */
static int no_record(KnxAdditionalInfo r, unsigned number, size_t offset) {
    return r.number == number && r.offset == offset && r.found == 0 && r.info_type == 0 && r.named == 0 && r.timestamped == 0 &&
           r.timestamp == 0 && r.start == 0 && r.end == 0;
}

static void areas(void) {
    CHECK(part_is(knx_cemi_additional_info(LENT(0x29, 0x0D, AREA, LDATA)), 2, 15, 0));
    CHECK(part_is(knx_cemi_additional_info(LENT(0x2E, 0x00, LDATA)), 2, 2, 0));
    CHECK(part_is(knx_cemi_additional_info(LENT(0x11, 0x03, 0x03, 0x01, 0x07)), 2, 5, 0));
    /* L_Busmon.ind, which has no L_Data */
    CHECK(part_is(knx_cemi_additional_info(LENT(0x2B, 0x03, 0x03, 0x01, 0x07, 0xBC)), 2, 5, 0));
    CHECK(part_refused(knx_cemi_additional_info(BYTES(0), 0), 1, 0));
    CHECK(part_refused(knx_cemi_additional_info(LENT(0x29)), 1, 1));
    CHECK(part_refused(knx_cemi_additional_info(LENT(0x13, 0x05)), 6, 0));
    CHECK(part_refused(knx_cemi_additional_info(large, LONG), 6, 0));
    CHECK(part_refused(knx_cemi_additional_info(LENT(0x29, 0x04, 0x04, 0x02, 0x12)), 2, 1));
    /* an area that is a lone type byte: it is stepped over, handed out, and refused by its readers alone */
    const uint8_t *lone = BYTES(0x29, 0x01, 0x04, LDATA);
    KnxLData l = knx_cemi_ldata(lone, SIZE(0x29, 0x01, 0x04, LDATA));
    CHECK(l.number == 0 && l.source == 0x1105 && l.start == 12 && l.end == 13);
    KnxPart p = knx_cemi_additional_info(lone, SIZE(0x29, 0x01, 0x04, LDATA));
    CHECK(part_is(p, 2, 3, 0));
    CHECK(count_refused(knx_additional_info_count(lone + p.start, p.end - p.start), 0));
}

static void first_records(void) {
    CHECK(stamped(knx_additional_info(LENT(AREA)), KNX_INFO_RELATIVE_TIMESTAMP, 0x1234, 2, 4));
    CHECK(stamped(knx_additional_info(LENT(0x06, 0x04, 0x80, 0x01, 0x02, 0x03)), 6, 0x80010203, 2, 6));
    CHECK(plain(knx_additional_info(LENT(0x99, 0x01, 0xAA)), 0x99, 0, 2, 3));
    CHECK(plain(knx_additional_info(large, LONG), 0, 0, 2, 2));
    CHECK(no_record(knx_additional_info(BYTES(4), 0), 0, 0));
    CHECK(no_record(knx_additional_info(LENT(0x04)), 14, 0));
    CHECK(no_record(knx_additional_info(LENT(0x04, 0x03, 0x00, 0x00)), 14, 0));
    /* timestamps of another length */
    CHECK(plain(knx_additional_info(LENT(0x04, 0x00)), 4, 1, 2, 2));
    CHECK(plain(knx_additional_info(LENT(0x04, 0x01, 0x12)), 4, 1, 2, 3));
    CHECK(plain(knx_additional_info(LENT(0x04, 0x04, 0x80, 0x01, 0x02, 0x03)), 4, 1, 2, 6));
    CHECK(plain(knx_additional_info(LENT(0x06, 0x02, 0x12, 0x34)), 6, 1, 2, 4));
    /* what stands behind the first record is not looked at */
    CHECK(plain(knx_additional_info(LENT(0x04, 0x00, 0x99)), 4, 1, 2, 2));
}

static void named_types(void) {
    CHECK(plain(knx_additional_info(LENT(0x01, 0x01, 0xAA)), KNX_INFO_PL_MEDIUM, 1, 2, 3));
    CHECK(plain(knx_additional_info(LENT(0x02, 0x01, 0xAA)), KNX_INFO_RF_MEDIUM, 1, 2, 3));
    CHECK(plain(knx_additional_info(LENT(0x03, 0x01, 0xAA)), KNX_INFO_BUSMONITOR_ERROR_FLAGS, 1, 2, 3));
    CHECK(plain(knx_additional_info(LENT(0x04, 0x01, 0xAA)), KNX_INFO_RELATIVE_TIMESTAMP, 1, 2, 3));
    CHECK(plain(knx_additional_info(LENT(0x05, 0x01, 0xAA)), KNX_INFO_TIME_DELAY, 1, 2, 3));
    CHECK(plain(knx_additional_info(LENT(0x06, 0x01, 0xAA)), KNX_INFO_EXTENDED_RELATIVE_TIMESTAMP, 1, 2, 3));
    CHECK(plain(knx_additional_info(LENT(0x07, 0x01, 0xAA)), KNX_INFO_BIBAT, 1, 2, 3));
    CHECK(plain(knx_additional_info(LENT(0x08, 0x01, 0xAA)), 8, 0, 2, 3));
}

static void nth_records(void) {
    CHECK(stamped(knx_additional_info_nth(LENT(AREA), 0), 4, 0x1234, 2, 4));
    CHECK(plain(knx_additional_info_nth(LENT(AREA), 1), 0x99, 0, 6, 7));
    CHECK(stamped(knx_additional_info_nth(LENT(AREA), 2), KNX_INFO_EXTENDED_RELATIVE_TIMESTAMP, 0x80010203, 9, 13));
    CHECK(no_record(knx_additional_info_nth(LENT(AREA), 3), 0, 0));
    CHECK(no_record(knx_additional_info_nth(LENT(AREA), LONG), 0, 0));
    CHECK(no_record(knx_additional_info_nth(LENT(AREA), SIZE_MAX), 0, 0));
    CHECK(plain(knx_additional_info_nth(LENT(0x04, 0x00), 0), 4, 1, 2, 2));
    CHECK(plain(knx_additional_info_nth(large, LONG, 32767), 0, 0, LONG, LONG));
    CHECK(no_record(knx_additional_info_nth(BYTES(4), 0, 0), 0, 0));
    /* the whole area has to be readable, whichever record is asked for */
    CHECK(no_record(knx_additional_info_nth(LENT(0x04), 1), 14, 0));
    CHECK(no_record(knx_additional_info_nth(LENT(0x04, 0x03, 0x00, 0x00), 1), 14, 0));
    CHECK(no_record(knx_additional_info_nth(LENT(0x04, 0x00, 0x99), 0), 14, 2));
    CHECK(no_record(knx_additional_info_nth(LENT(0x04, 0x00, 0x99, 0x01), 0), 14, 2));
    CHECK(no_record(knx_additional_info_nth(LENT(0x04, 0x00, 0x99), 7), 14, 2));
    CHECK(no_record(knx_additional_info_nth(LENT(AREA, 0x05), 0), 14, 13));
    CHECK(no_record(knx_additional_info_nth(LENT(0x04, 0x02, 0x12, 0x34, 0x99, 0x09, 0xAA, 0x06, 0x00), 0), 14, 4));
    CHECK(no_record(knx_additional_info_nth(large, LONG - 1, 3), 14, LONG - 2));
}

static void counts(void) {
    CHECK(count_is(knx_additional_info_count(BYTES(4), 0), 0, 0));
    CHECK(count_is(knx_additional_info_count(LENT(0x04, 0x00)), 1, 0));
    CHECK(count_is(knx_additional_info_count(LENT(AREA)), 3, 0));
    CHECK(count_is(knx_additional_info_count(large, LONG), 32768, 0));
    CHECK(count_refused(knx_additional_info_count(LENT(0x04)), 0));
    CHECK(count_refused(knx_additional_info_count(LENT(0x04, 0x03, 0x00, 0x00)), 0));
    CHECK(count_refused(knx_additional_info_count(LENT(0x04, 0x00, 0x99)), 2));
    CHECK(count_refused(knx_additional_info_count(large, LONG - 1), LONG - 2));
    CHECK(count_refused(knx_additional_info_count(LENT(AREA, 0x05)), 13));
    CHECK(count_refused(knx_additional_info_count(LENT(0x04, 0x02, 0x12, 0x34, 0x99, 0x09, 0xAA, 0x06, 0x00)), 4));
}

/* The loop in include/knx.h, on a frame with three records. */
static void walking(void) {
    const uint8_t *cemi = BYTES(0x29, 0x0D, AREA, LDATA);
    size_t cemi_length = SIZE(0x29, 0x0D, AREA, LDATA);
    KnxAdditionalInfo walked[4] = {{0}};
    uint8_t first_bytes[4] = {0};
    size_t records = 0, at;
    KnxPart p = knx_cemi_additional_info(cemi, cemi_length);
    for (at = p.start; p.number == 0 && records < 4;) {
        KnxAdditionalInfo r = knx_additional_info(cemi + at, p.end - at);
        if (r.number != 0 || !r.found) break;
        first_bytes[records] = cemi[at + r.start];
        walked[records++] = r;
        at += r.end;
    }
    CHECK(records == 3 && at == 15 && p.end == 15 && memcmp(first_bytes, BYTES(0x12, 0xAA, 0x80), 3) == 0);
    CHECK(stamped(walked[0], 4, 0x1234, 2, 4) && plain(walked[1], 0x99, 0, 2, 3));
    CHECK(stamped(walked[2], 6, 0x80010203, 2, 6));
}

/* ---- building */

/* A builder reads no datagram: its offset is 0, also on a refusal. */
static int wrote(KnxWritten w, const uint8_t *bytes, size_t n) {
    return w.number == 0 && w.offset == 0 && w.count == n && holds(bytes, n);
}

static int refused(KnxWritten w, unsigned number) {
    return w.number == number && w.offset == 0 && w.count == 0 && untouched();
}

static const KnxEndpoint control = {.address = {192, 168, 1, 10}, .port = 3671};
static const KnxEndpoint data = {.address = {10, 0, 0, 7}, .port = 50000};

static void ldatas(void) {
    fill();
    CHECK(wrote(knx_ldata_build(0xBC, 0xD0, 0x1234, 0x5678, 0x54, 0x3C0, 0x2A, LENT(1, 2, 3), out, LONG),
                LENT(0xBC, 0xD0, 0x12, 0x34, 0x56, 0x78, 0x05, 0x57, 0xEA, 1, 2, 3)));
    fill();
    CHECK(wrote(knx_ldata_build(0x94, 0xE0, 0x1105, 0x0803, 0x00, 0x080, 0, LENT(0x2A), out, 10),
                LENT(0x94, 0xE0, 0x11, 0x05, 0x08, 0x03, 0x03, 0x00, 0x80, 0x2A)));
    fill();
    CHECK(refused(knx_ldata_build(0x94, 0xE0, 0x1105, 0x0803, 0x00, 0x080, 0, LENT(0x2A), out, 9), 1));
    CHECK(refused(knx_ldata_build(0x94, 0xE0, 0x1105, 0x0803, 0x80, 0x080, 0, LENT(0x2A), out, 9), 13));
    CHECK(refused(knx_ldata_build(0x94, 0xE0, 0x1105, 0x0803, 0x00, 0x400, 0, LENT(0x2A), out, 9), 13));
    CHECK(refused(knx_ldata_build(0x94, 0xE0, 0x1105, 0x0803, 0x00, 0x081, 0, LENT(0x2A), out, 9), 13));
    CHECK(refused(knx_ldata_build(0x94, 0xE0, 0x1105, 0x0803, 0x00, 0x080, 64, LENT(0x2A), out, 9), 13));
    CHECK(refused(knx_ldata_build(0x94, 0xE0, 0x1105, 0x0803, 0x00, 0x080, 0, large, 254, out, 9), 5));
    CHECK(refused(knx_ldata_build(0x94, 0xE0, 0x1105, 0x0803, 0x00, 0x080, 0, large, LONG, out, 9), 5));
}

static void ldatas_standard(void) {
    fill();
    CHECK(wrote(knx_ldata_build_standard(0xBC, 0xD0, 0x1234, 0x5678, 0x54, 0x3C0, 0x2A, LENT(1, 2, 3), out, LONG),
                LENT(0xBC, 0xD0, 0x12, 0x34, 0x56, 0x78, 0x04, 0x57, 0xEA, 1, 2, 3)));
    fill();
    CHECK(wrote(knx_ldata_build_standard(0xBC, 0xE0, 0x1105, 0x0803, 0x00, 0x080, 1, large, 0, out, 9),
                LENT(0xBC, 0xE0, 0x11, 0x05, 0x08, 0x03, 0x01, 0x00, 0x81)));
    /* control packets; the low bits of tpci and the six-bit number are not looked at */
    fill();
    CHECK(wrote(knx_ldata_build_standard(0xB0, 0x60, 0x1105, 0x120A, 0x80, KNX_CONTROL_DISCONNECT, 0, large, 0, out, 8),
                LENT(0xB0, 0x60, 0x11, 0x05, 0x12, 0x0A, 0x00, 0x81)));
    fill();
    CHECK(wrote(knx_ldata_build_standard(0xB0, 0x60, 0x1105, 0x120A, 0xD7, KNX_CONTROL_ACK, 64, large, 0, out, LONG),
                LENT(0xB0, 0x60, 0x11, 0x05, 0x12, 0x0A, 0x00, 0xD6)));
    fill();
    CHECK(refused(knx_ldata_build_standard(0xB0, 0x60, 0x1105, 0x120A, 0x80, 0, 0, large, 0, out, 7), 1));
    CHECK(refused(knx_ldata_build_standard(0xB0, 0x60, 0x1105, 0x120A, 0x80, 4, 0, large, 0, out, 8), 13));
    CHECK(refused(knx_ldata_build_standard(0xB0, 0x60, 0x1105, 0x120A, 0x80, 0x100, 0, large, 0, out, 8), 13));
    CHECK(refused(knx_ldata_build_standard(0xB0, 0x60, 0x1105, 0x120A, 0x80, 0, 0, large, 254, out, 8), 13));
    CHECK(refused(knx_ldata_build_standard(0xBC, 0xE0, 0x1105, 0x0803, 0x00, 0x080, 0, LENT(0x2A), out, 9), 1));
    CHECK(refused(knx_ldata_build_standard(0xBC, 0xE0, 0x1105, 0x0803, 0x00, 0x003, 0, LENT(0x2A), out, 9), 13));
    CHECK(refused(knx_ldata_build_standard(0xBC, 0xE0, 0x1105, 0x0803, 0x00, 0x080, 64, LENT(0x2A), out, 9), 13));
    CHECK(refused(knx_ldata_build_standard(0xBC, 0xE0, 0x1105, 0x0803, 0x00, 0x080, 0, large, 254, out, 9), 5));
    CHECK(refused(knx_ldata_build_standard(0xBC, 0xE0, 0x1105, 0x0803, 0x00, 0x080, 0, large, LONG, out, 9), 5));
    CHECK(refused(knx_ldata_build_standard(0xB0, 0x60, 0x1105, 0x120A, 0x80, 0, 0, large, LONG, out, 8), 13));
}

static void appending(void) {
    fill();
    CHECK(wrote(knx_additional_info_append(LENT(0x99, 0x01, 0xAA), 0x04, LENT(0x12, 0x34), out, 7),
                LENT(0x99, 0x01, 0xAA, 0x04, 0x02, 0x12, 0x34)));
    fill();
    CHECK(wrote(knx_additional_info_append(BYTES(4), 0, 0x06, LENT(0x80, 0x01, 0x02, 0x03), out, LONG),
                LENT(0x06, 0x04, 0x80, 0x01, 0x02, 0x03)));
    fill();
    CHECK(wrote(knx_additional_info_append(LENT(0x04, 0x02, 0x12, 0x34), 0x99, BYTES(5), 0, out, 9),
                LENT(0x04, 0x02, 0x12, 0x34, 0x99, 0x00)));
    /* the longest: of data alone, of an old area alone */
    const uint8_t by_data[255] = {0x05, 0xFD}, by_area[255] = {0x07, 0xFB, [253] = 0x05};
    fill();
    CHECK(wrote(knx_additional_info_append(BYTES(4), 0, 0x05, large, 253, out, 255), by_data, 255));
    fill();
    CHECK(wrote(knx_additional_info_append(by_area, 253, 0x05, BYTES(4), 0, out, 256), by_area, 255));
    /* 14, before 5, before 1 */
    fill();
    CHECK(refused(knx_additional_info_append(LENT(0x04), 0x05, large, 254, out, 0), 14));
    CHECK(refused(knx_additional_info_append(LENT(0x04, 0x03, 0x00, 0x00), 0x05, LENT(0x12, 0x34), out, LONG), 14));
    CHECK(refused(knx_additional_info_append(LENT(0x04, 0x00, 0x99), 0x05, LENT(0x12, 0x34), out, 6), 14));
    CHECK(refused(knx_additional_info_append(large, 257, 0x05, LENT(0x12, 0x34), out, 6), 14));
    CHECK(refused(knx_additional_info_append(BYTES(4), 0, 0x05, large, 254, out, 3), 5));
    CHECK(refused(knx_additional_info_append(LENT(0x04, 0x00), 0x05, large, 252, out, 3), 5));
    CHECK(refused(knx_additional_info_append(large, 254, 0x05, BYTES(4), 0, out, LONG), 5));
    CHECK(refused(knx_additional_info_append(large, LONG, 0x05, LENT(0x12, 0x34), out, 6), 5));
    CHECK(refused(knx_additional_info_append(LENT(0x04, 0x00), 0x05, large, LONG, out, 6), 5));
    CHECK(refused(knx_additional_info_append(LENT(0x99, 0x01, 0xAA), 0x04, LENT(0x12, 0x34), out, 6), 1));
    CHECK(refused(knx_additional_info_append(BYTES(4), 0, 0x05, large, 253, out, 254), 1));
}

static void cemi_frames(void) {
    fill();
    CHECK(wrote(knx_cemi_build(0x29, LENT(0x04, 0x02, 0x12, 0x34), LENT(LDATA), out, 16),
                LENT(0x29, 0x04, 0x04, 0x02, 0x12, 0x34, LDATA)));
    fill();
    CHECK(wrote(knx_cemi_build(0x11, BYTES(4), 0, LENT(LDATA), out, LONG), LENT(0x11, 0x00, LDATA)));
    fill();
    CHECK(wrote(knx_cemi_build(0x2B, LENT(0x03, 0x01, 0x07), BYTES(4), 0, out, 6), LENT(0x2B, 0x03, 0x03, 0x01, 0x07)));
    const uint8_t codes[] = {0x10, 0x11, 0x29, 0x2B, 0x2D, 0x2E, 0x2F};
    for (size_t i = 0; i < sizeof codes; i++) {
        fill();
        CHECK(wrote(knx_cemi_build(codes[i], BYTES(4), 0, BYTES(5), 0, out, 2), LENT(codes[i], 0x00)));
    }
    /* the longest area, of 255 bytes, and more than two bytes can say behind it */
    static uint8_t longest[257 + LONG] = {0x2E, 0xFF, 0x05, 0xFD};
    fill();
    CHECK(wrote(knx_cemi_build(0x2E, longest + 2, 255, large, LONG, out, 257 + LONG), longest, 257 + LONG));
    /* 6, before 14, before 5, before 1 */
    fill();
    CHECK(refused(knx_cemi_build(0x13, LENT(0x04), LENT(LDATA), out, 0), 6));
    CHECK(refused(knx_cemi_build(0x00, BYTES(4), 0, LENT(LDATA), out, LONG), 6));
    CHECK(refused(knx_cemi_build(0x29, large, 257, LENT(LDATA), out, 3), 14));
    CHECK(refused(knx_cemi_build(0x29, LENT(0x04), LENT(LDATA), out, LONG), 14));
    CHECK(refused(knx_cemi_build(0x29, LENT(0x04, 0x00, 0x99), LENT(LDATA), out, 3), 14));
    CHECK(refused(knx_cemi_build(0x29, large, 256, LENT(LDATA), out, 3), 5));
    CHECK(refused(knx_cemi_build(0x29, large, LONG, LENT(LDATA), out, 70000), 5));
    CHECK(refused(knx_cemi_build(0x29, LENT(0x04, 0x02, 0x12, 0x34), LENT(LDATA), out, 15), 1));
    CHECK(refused(knx_cemi_build(0x2E, longest + 2, 255, large, LONG, out, 256 + LONG), 1));
    CHECK(refused(knx_cemi_build(0x29, BYTES(4), 0, BYTES(5), 0, out, 1), 1));
}

static void requests(void) {
    fill();
    CHECK(wrote(knx_connect_request(control, data, out, 26),
                LENT(0x06, 0x10, 0x02, 0x05, 0x00, 0x1A, 0x08, 0x01, 192, 168, 1, 10, 0x0E, 0x57, 0x08, 0x01, 10, 0, 0, 7,
                     0xC3, 0x50, 0x04, 0x04, 0x02, 0x00)));
    fill();
    CHECK(refused(knx_connect_request(control, data, out, 25), 1));
    CHECK(wrote(knx_connectionstate_request(0x15, control, out, 16),
                LENT(0x06, 0x10, 0x02, 0x07, 0x00, 0x10, 0x15, 0x00, 0x08, 0x01, 192, 168, 1, 10, 0x0E, 0x57)));
    fill();
    CHECK(refused(knx_connectionstate_request(0x15, control, out, 15), 1));
    CHECK(wrote(knx_connectionstate_request(0x2A, data, out, LONG),
                LENT(0x06, 0x10, 0x02, 0x07, 0x00, 0x10, 0x2A, 0x00, 0x08, 0x01, 10, 0, 0, 7, 0xC3, 0x50)));
    fill();
    CHECK(wrote(knx_disconnect_request(0x15, control, out, 16),
                LENT(0x06, 0x10, 0x02, 0x09, 0x00, 0x10, 0x15, 0x00, 0x08, 0x01, 192, 168, 1, 10, 0x0E, 0x57)));
    fill();
    CHECK(refused(knx_disconnect_request(0x15, control, out, 15), 1));
    CHECK(wrote(knx_disconnect_request(0x2A, data, out, LONG),
                LENT(0x06, 0x10, 0x02, 0x09, 0x00, 0x10, 0x2A, 0x00, 0x08, 0x01, 10, 0, 0, 7, 0xC3, 0x50)));
}

static void tunnelled(void) {
    fill();
    CHECK(wrote(knx_tunneling_request(0x15, 0x07, LENT(0x29, 0x00, 0xBC), out, 13),
                LENT(0x06, 0x10, 0x04, 0x20, 0x00, 0x0D, 0x04, 0x15, 0x07, 0x00, 0x29, 0x00, 0xBC)));
    fill();
    CHECK(refused(knx_tunneling_request(0x15, 0x07, LENT(0x29, 0x00, 0xBC), out, 12), 1));
    CHECK(refused(knx_tunneling_request(0x15, 0x07, large, 65526, out, 65535), 1));
    CHECK(refused(knx_tunneling_request(0x15, 0x07, large, 65526, out, LONG), 5));
    CHECK(wrote(knx_tunneling_ack(0x15, 0x07, 0x29, out, 11),
                LENT(0x06, 0x10, 0x04, 0x21, 0x00, 0x0B, 0x04, 0x15, 0x07, 0x00, 0x29)));
    fill();
    CHECK(refused(knx_tunneling_ack(0x15, 0x07, 0x29, out, 10), 1));
    CHECK(wrote(knx_tunneling_ack(0x2A, 0x08, 0x01, out, LONG),
                LENT(0x06, 0x10, 0x04, 0x21, 0x00, 0x0B, 0x04, 0x2A, 0x08, 0x00, 0x01)));
}

/* In KNX's own form. */
static void answers(void) {
    fill();
    CHECK(wrote(knx_tunneling_ack_standard(0x15, 0x07, 0x29, out, 10),
                LENT(0x06, 0x10, 0x04, 0x21, 0x00, 0x0A, 0x04, 0x15, 0x07, 0x29)));
    fill();
    CHECK(refused(knx_tunneling_ack_standard(0x15, 0x07, 0x29, out, 9), 1));
    CHECK(refused(knx_tunneling_ack_standard(0x15, 0x07, 0x29, out, 0), 1));
    CHECK(wrote(knx_tunneling_ack_standard(0x2A, 0xFF, KNX_STATUS_NO_ERROR, out, LONG),
                LENT(0x06, 0x10, 0x04, 0x21, 0x00, 0x0A, 0x04, 0x2A, 0xFF, 0x00)));
    fill();
    CHECK(wrote(knx_disconnect_response_build(0x15, 0x26, out, 8), LENT(0x06, 0x10, 0x02, 0x0A, 0x00, 0x08, 0x15, 0x26)));
    CHECK(frame_is(knx_frame_parse(out, 8), 6, 8, KNX_SERVICE_DISCONNECT_RESPONSE, 8, 0));
    CHECK(status_is(knx_disconnect_response(out + 6, 2), 0x15, 0x26, 0));
    fill();
    CHECK(refused(knx_disconnect_response_build(0x15, 0x26, out, 7), 1));
    CHECK(refused(knx_disconnect_response_build(0x15, 0x26, out, 0), 1));
    CHECK(wrote(knx_disconnect_response_build(0x2A, KNX_STATUS_NO_ERROR, out, LONG),
                LENT(0x06, 0x10, 0x02, 0x0A, 0x00, 0x08, 0x2A, 0x00)));
    /* our own request, read as the gateway reads it */
    fill();
    CHECK(knx_disconnect_request(0x15, control, out, 16).number == 0);
    KnxDisconnectRequest d = knx_disconnect_request_parse(out + 6, 10);
    CHECK(d.number == 0 && d.channel == 0x15 && memcmp(d.address, control.address, 4) == 0 && d.port == control.port);
}

/* ---- an area far longer than a frame can have, and in the least stack of a thread */

enum { MANY = 1048576, LEAST_STACK = PTHREAD_STACK_MIN > 16384 ? PTHREAD_STACK_MIN : 16384, PAINT = 0xA7 };

/* The two head bytes of a cEMI frame, then 2 MiB of zeros, which are MANY records, and one byte more. */
static uint8_t frame[2 + 2 * MANY + 1];
static const uint8_t *const area = frame + 2;

static struct {
    KnxPart part;
    KnxAdditionalInfo first, last, behind, odd;
    KnxCount count, odd_count;
    KnxWritten append, odd_append, build, odd_build;
} said;

static void ask_part(void) { said.part = knx_cemi_additional_info(frame, 2 + 2 * MANY); }
static void ask_first(void) { said.first = knx_additional_info(area, 2 * MANY); }
static void ask_last(void) { said.last = knx_additional_info_nth(area, 2 * MANY, MANY - 1); }
static void ask_behind(void) { said.behind = knx_additional_info_nth(area, 2 * MANY, MANY); }
static void ask_count(void) { said.count = knx_additional_info_count(area, 2 * MANY); }
static void ask_append(void) { said.append = knx_additional_info_append(area, 2 * MANY, 4, LENT(0x12, 0x34), out, 0); }
static void ask_build(void) { said.build = knx_cemi_build(0x29, area, 2 * MANY, LENT(LDATA), out, 0); }

/* With the byte more, a lone type byte. */
static void ask_odd(void) { said.odd = knx_additional_info_nth(area, 2 * MANY + 1, MANY - 1); }
static void ask_odd_count(void) { said.odd_count = knx_additional_info_count(area, 2 * MANY + 1); }
static void ask_odd_append(void) { said.odd_append = knx_additional_info_append(area, 2 * MANY + 1, 4, LENT(0x12, 0x34), out, 0); }
static void ask_odd_build(void) { said.odd_build = knx_cemi_build(0x29, area, 2 * MANY + 1, LENT(LDATA), out, 0); }

static void (*const asks[])(void) = {ask_part,  ask_first, ask_last,      ask_behind,     ask_count,    ask_append,
                                     ask_build, ask_odd,   ask_odd_count, ask_odd_append, ask_odd_build};

enum { ASKS = sizeof asks / sizeof *asks };

/* Judges what was said, and forgets it. */
static void check_said(void) {
    CHECK(part_is(said.part, 2, 257, 0) && plain(said.first, 0, 0, 2, 2));
    CHECK(plain(said.last, 0, 0, 2 * MANY, 2 * MANY) && no_record(said.behind, 0, 0) && count_is(said.count, MANY, 0));
    CHECK(refused(said.append, 5) && refused(said.build, 5));
    CHECK(no_record(said.odd, 14, 2 * MANY) && count_refused(said.odd_count, 2 * MANY));
    CHECK(refused(said.odd_append, 14) && refused(said.odd_build, 14));
    memset(&said, 0xEE, sizeof said);
}

typedef struct {
    void (*ask)(void);
    uintptr_t caller; /* an address in the caller's frame */
} Asker;

static void *in_thread(void *asker) {
    Asker *a = asker;
    a->caller = (uintptr_t)&a;
    a->ask();
    return NULL;
}

/* How far below its caller a call overwrote a painted stack. The thread itself checks and prints nothing: that
 * would take more stack than the call. */
static size_t stack_taken(void (*ask)(void)) {
    static _Alignas(64) uint8_t stack[LEAST_STACK];
    Asker asker = {.ask = ask};
    pthread_attr_t attributes;
    pthread_t thread;
    memset(stack, PAINT, sizeof stack);
    CHECK(pthread_attr_init(&attributes) == 0 && pthread_attr_setstack(&attributes, stack, sizeof stack) == 0 &&
          pthread_create(&thread, &attributes, in_thread, &asker) == 0 && pthread_join(thread, NULL) == 0);
    pthread_attr_destroy(&attributes);
    const uint8_t *lowest = stack;
    while (lowest < stack + sizeof stack && *lowest == PAINT) lowest++;
    return asker.caller - (uintptr_t)lowest;
}

/* First on the usual stack, then each call in a thread of its own. The most that one took. */
static size_t long_areas(void) {
    size_t most = 0;
    memcpy(frame, BYTES(0x29, 0xFF), 2);
    fill();
    for (size_t i = 0; i < ASKS; i++) asks[i]();
    check_said();
    for (size_t i = 0; i < ASKS; i++) {
        size_t taken = stack_taken(asks[i]);
        most = taken > most ? taken : most;
    }
    check_said();
    CHECK(most <= 1024);
    return most;
}

/* ---- the table: 40 bytes of image, and others behind it that no call may touch */

static uint8_t image[LONG];

/* The image with these first places, the rest free, and EE up to the end. */
static void set_image(const uint8_t *bytes, size_t n) {
    memset(image, 0xEE, LONG);
    memset(image, 0, 40);
    memcpy(image, bytes, n);
}

static int image_is(const uint8_t *bytes, size_t n) {
    for (size_t i = 0; i < 40; i++)
        if (image[i] != (i < n ? bytes[i] : 0)) return 0;
    for (size_t i = 40; i < LONG; i++)
        if (image[i] != 0xEE) return 0;
    return 1;
}

static int called(KnxCalled c, unsigned said, size_t start, size_t end, size_t written) {
    return c.number == 0 && c.offset == 0 && c.said == said && c.start == start && c.end == end && c.written == written;
}

/* Refused at an offset in the datagram. */
static int refused_at(KnxCalled c, unsigned number, size_t offset) {
    return c.number == number && c.offset == offset && c.said == 0 && c.start == 0 && c.end == 0 && c.written == 0;
}

/* Refused by the image, an id or the output, which stand in no datagram. */
static int call_refused(KnxCalled c, unsigned number) { return refused_at(c, number, 0); }

static void opening(void) {
    memset(image, 0xEE, LONG);
    KnxWritten w = knx_table_empty(image, 39);
    CHECK(w.number == 1 && w.offset == 0 && w.count == 0 && image[0] == 0xEE && image[39] == 0xEE);
    w = knx_table_empty(image, LONG);
    CHECK(w.number == 0 && w.offset == 0 && w.count == 40 && image_is(BYTES(0), 0));
    CHECK(call_refused(knx_table_open(image, 39, 21), 1) && image_is(BYTES(0), 0));
    CHECK(called(knx_table_open(image, LONG, 21), KNX_SAID_NOTHING, 0, 0, 0) && image_is(LENT(1, 21, 0, 0, 0)));
    CHECK(call_refused(knx_table_open(image, 42, 21), 7));
    CHECK(called(knx_table_open(image, 40, 40), KNX_SAID_NOTHING, 0, 0, 0) && image_is(LENT(1, 21, 0, 0, 0, 1, 40, 0, 0, 0)));
    CHECK(called(knx_table_close(image, LONG, 21), KNX_SAID_NOTHING, 0, 0, 0) && image_is(LENT(0, 0, 0, 0, 0, 1, 40, 0, 0, 0)));
    CHECK(call_refused(knx_table_close(image, 42, 21), 9) && call_refused(knx_table_close(image, 39, 40), 1));
    for (unsigned id = 1; id <= 7; id++) CHECK(knx_table_open(image, 42, (uint8_t)id).number == 0);
    CHECK(call_refused(knx_table_open(image, 42, 8), 8) && call_refused(knx_table_open(image, 42, 40), 7));
}

static void waiting(void) {
    set_image(LENT(1, 21, 3, 200, 0));
    fill();
    CHECK(call_refused(knx_table_timeout(image, 42, 21), 11) && call_refused(knx_table_timeout(image, 42, 22), 9));
    CHECK(call_refused(knx_table_timeout(image, 39, 21), 1));
    CHECK(call_refused(knx_table_send(image, 39, 21, LENT(0x29, 0x00, 0xBC), out, 13), 1));
    CHECK(call_refused(knx_table_send(image, 42, 22, LENT(0x29, 0x00, 0xBC), out, 13), 9));
    CHECK(call_refused(knx_table_send(image, 42, 21, LENT(0x29, 0x00, 0xBC), out, 12), 1));
    CHECK(call_refused(knx_table_send(image, 42, 21, large, 65526, out, 65535), 1));
    CHECK(call_refused(knx_table_send(image, 42, 21, large, 65526, out, LONG), 5));
    CHECK(untouched() && image_is(LENT(1, 21, 3, 200, 0)));
    CHECK(called(knx_table_send(image, LONG, 21, LENT(0x29, 0x00, 0xBC), out, 13), KNX_SAID_NOTHING, 0, 0, 13));
    CHECK(holds(LENT(0x06, 0x10, 0x04, 0x20, 0x00, 0x0D, 0x04, 21, 200, 0x00, 0x29, 0x00, 0xBC)) && image_is(LENT(1, 21, 3, 200, 1)));
    fill();
    CHECK(call_refused(knx_table_send(image, 42, 21, LENT(0x29, 0x00, 0xBC), out, 13), 10) && untouched());
    CHECK(called(knx_table_timeout(image, LONG, 21), KNX_SAID_REPEAT, 0, 0, 0) && image_is(LENT(1, 21, 3, 200, 2)));
    CHECK(called(knx_table_timeout(image, 42, 21), KNX_SAID_GIVE_UP, 0, 0, 0) && image_is(BYTES(0), 0));
}

static void datagrams(void) {
    set_image(LENT(1, 21, 255, 9, 1));
    fill();
    /* request 255 with r = 255: deliver, r = 0; then a duplicate; then out of order */
    CHECK(called(knx_table_datagram(image, 42, LENT(0x06, 0x10, 0x04, 0x20, 0x00, 0x0C, 0x04, 21, 255, 0x00, 0x29, 0x00, 0xEE), out, 11),
                 KNX_SAID_DELIVER, 10, 12, 11));
    CHECK(holds(LENT(0x06, 0x10, 0x04, 0x21, 0x00, 0x0B, 0x04, 21, 255, 0x00, 0x00)) && image_is(LENT(1, 21, 0, 9, 1)));
    fill();
    CHECK(called(knx_table_datagram(image, 42, LENT(0x06, 0x10, 0x04, 0x20, 0x00, 0x0C, 0x04, 21, 255, 0x00, 0x29, 0x00), out, 11),
                 KNX_SAID_DUPLICATE, 0, 0, 11));
    CHECK(holds(LENT(0x06, 0x10, 0x04, 0x21, 0x00, 0x0B, 0x04, 21, 255, 0x00, 0x00)) && image_is(LENT(1, 21, 0, 9, 1)));
    fill();
    CHECK(called(knx_table_datagram(image, 42, LENT(0x06, 0x10, 0x04, 0x20, 0x00, 0x0A, 0x04, 21, 7, 0x00), out, 0), KNX_SAID_OUT_OF_ORDER, 0, 0, 0));
    CHECK(call_refused(knx_table_datagram(image, 42, LENT(0x06, 0x10, 0x04, 0x20, 0x00, 0x0A, 0x04, 21, 0, 0x00), out, 10), 1));
    /* acknowledgements: of another number, of s, of s when idle */
    CHECK(called(knx_table_datagram(image, 42, LENT(0x06, 0x10, 0x04, 0x21, 0x00, 0x0B, 0x04, 21, 8, 0x00, 0x00), out, 0), KNX_SAID_IGNORED, 0, 0, 0));
    CHECK(called(knx_table_datagram(image, 42, LENT(0x06, 0x10, 0x04, 0x21, 0x00, 0x0B, 0x04, 21, 9, 0x00, 0x00), out, 0), KNX_SAID_SENT, 0, 0, 0));
    CHECK(image_is(LENT(1, 21, 0, 10, 0)) && untouched());
    /* refusals: image, frame, service, body, channel */
    CHECK(call_refused(knx_table_datagram(image, 39, LENT(0x06, 0x10, 0x04, 0x20, 0x00, 0x0A, 0x04, 21, 0, 0x00), out, 11), 1));
    CHECK(refused_at(knx_table_datagram(image, 42, LENT(0x05, 0x20, 0x04, 0x20, 0x00, 0x06), out, 11), 2, 0));
    CHECK(refused_at(knx_table_datagram(image, 42, LENT(0x06, 0x10, 0x02, 0x05, 0x00, 0x06), out, 11), 12, 2));
    CHECK(refused_at(knx_table_datagram(image, 42, LENT(0x06, 0x10, 0x04, 0x20, 0x00, 0x06), out, 11), 1, 6));
    CHECK(refused_at(knx_table_datagram(image, 42, LENT(0x06, 0x10, 0x04, 0x20, 0x00, 0x0A, 0x04, 22, 0, 0x00), out, 11), 9, 7));
    CHECK(image_is(LENT(1, 21, 0, 10, 0)) && untouched());
}

/* Datagrams of channel 21: a request with a cEMI of two bytes, an acknowledgement in KNX's own form, whose body has
 * four bytes, and one in the crate's, whose body has five. */
#define REQUEST(number) 0x06, 0x10, 0x04, 0x20, 0x00, 0x0C, 0x04, 21, number, 0x00, 0x29, 0x00
#define ACK(number, status) 0x06, 0x10, 0x04, 0x21, 0x00, 0x0A, 0x04, 21, number, status
#define LONG_ACK(number, fourth, fifth) 0x06, 0x10, 0x04, 0x21, 0x00, 0x0B, 0x04, 21, number, fourth, fifth

/* In KNX's own form. */
static void datagrams_standard(void) {
    set_image(LENT(1, 21, 255, 9, 1));
    fill();
    /* request 255 with r = 255: nothing changes with an out of 9 bytes; deliver, r = 0; then a duplicate */
    CHECK(call_refused(knx_table_datagram_standard(image, 42, LENT(REQUEST(255)), out, 9), 1));
    CHECK(call_refused(knx_table_datagram_standard(image, 42, LENT(REQUEST(255)), out, 0), 1));
    CHECK(untouched() && image_is(LENT(1, 21, 255, 9, 1)));
    CHECK(called(knx_table_datagram_standard(image, 42, LENT(REQUEST(255), 0xEE), out, 10), KNX_SAID_DELIVER, 10, 12, 10));
    CHECK(holds(LENT(ACK(255, 0x00))) && image_is(LENT(1, 21, 0, 9, 1)));
    fill();
    CHECK(call_refused(knx_table_datagram_standard(image, 42, LENT(REQUEST(255)), out, 9), 1));
    CHECK(untouched() && image_is(LENT(1, 21, 0, 9, 1)));
    CHECK(called(knx_table_datagram_standard(image, LONG, LENT(REQUEST(255)), out, LONG), KNX_SAID_DUPLICATE, 0, 0, 10));
    CHECK(holds(LENT(ACK(255, 0x00))) && image_is(LENT(1, 21, 0, 9, 1)));
    fill();
    CHECK(called(knx_table_datagram_standard(image, 42, LENT(REQUEST(7)), out, 0), KNX_SAID_OUT_OF_ORDER, 0, 0, 0));
    /* acknowledgements: of another number, of s, of s when idle */
    CHECK(called(knx_table_datagram_standard(image, 42, LENT(ACK(8, 0x00)), out, 0), KNX_SAID_IGNORED, 0, 0, 0));
    CHECK(untouched() && image_is(LENT(1, 21, 0, 9, 1)));
    static const uint8_t padded[LONG] = {ACK(9, 0x00)};
    CHECK(called(knx_table_datagram_standard(image, 40, padded, LONG, out, 11), KNX_SAID_SENT, 0, 0, 0));
    CHECK(untouched() && image_is(LENT(1, 21, 0, 10, 0)));
    CHECK(called(knx_table_datagram_standard(image, 42, LENT(ACK(9, 0x00)), out, 0), KNX_SAID_IGNORED, 0, 0, 0));
    CHECK(called(knx_table_datagram_standard(image, 42, LENT(ACK(10, 0x29)), out, 0), KNX_SAID_IGNORED, 0, 0, 0));
    /* refusals: image, frame, version, service, body, channel */
    CHECK(call_refused(knx_table_datagram_standard(image, 39, LENT(REQUEST(0)), out, 10), 1));
    CHECK(refused_at(knx_table_datagram_standard(image, 42, BYTES(6), 0, out, 10), 1, 0));
    CHECK(refused_at(knx_table_datagram_standard(image, 42, LENT(0x05, 0x20, 0x04, 0x20, 0x00, 0x06), out, 10), 2, 0));
    CHECK(refused_at(knx_table_datagram_standard(image, 42, LENT(0x06, 0x20, 0x04, 0x20, 0x00, 0x06), out, 10), 3, 1));
    CHECK(refused_at(knx_table_datagram_standard(image, 42, LENT(0x06, 0x10, 0xFF, 0xFF, 0x00, 0x06), out, 10), 4, 2));
    CHECK(refused_at(knx_table_datagram_standard(image, 42, LENT(0x06, 0x10, 0x02, 0x08, 0x00, 0x08, 21, 0x00), out, 10), 12, 2));
    CHECK(refused_at(knx_table_datagram_standard(image, 42, LENT(0x06, 0x10, 0x04, 0x20, 0x00, 0x09, 0x04, 21, 0), out, 10), 1, 9));
    CHECK(refused_at(knx_table_datagram_standard(image, 42, LENT(0x06, 0x10, 0x04, 0x21, 0x00, 0x09, 0x04, 21, 10, 0x00), out, 10), 1, 9));
    CHECK(refused_at(knx_table_datagram_standard(image, 42, LENT(0x06, 0x10, 0x04, 0x20, 0x00, 0x0A, 0x04, 22, 0, 0x00), out, 10), 9, 7));
    CHECK(refused_at(knx_table_datagram_standard(image, 42, LENT(0x06, 0x10, 0x04, 0x21, 0x00, 0x0A, 0x04, 22, 0, 0x00), out, 10), 9, 7));
    CHECK(untouched() && image_is(LENT(1, 21, 0, 10, 0)));
}

/* Where a datagram is refused, in both forms: the fields of its header; the end that the total length gives a body
 * that is too short, whatever stands behind it; the channel. Whatever else is lent, the offset stays. */
static void places(void) {
    KnxCalled (*const forms[])(uint8_t *, size_t, const uint8_t *, size_t, uint8_t *, size_t) = {knx_table_datagram_standard,
                                                                                               knx_table_datagram};
    static const struct {
        uint8_t bytes[12];
        uint8_t length, number, offset;
    } rows[] = {
        {{0x06, 0x10, 0x04, 0x20, 0x00}, 5, 1, 5},
        {{0x05, 0x10, 0x04, 0x20, 0x00, 0x0A, 0x04, 21, 0, 0x00, 0xEE}, 11, 2, 0},
        {{0x06, 0x20, 0x04, 0x20, 0x00, 0x0A, 0x04, 21, 0, 0x00, 0xEE}, 11, 3, 1},
        {{0x06, 0x10, 0x04, 0x22, 0x00, 0x0A, 0x04, 21, 0, 0x00, 0xEE}, 11, 4, 2},
        {{0x06, 0x10, 0x04, 0x20, 0x00, 0x05, 0x04, 21, 0, 0x00, 0xEE}, 11, 2, 4},
        {{0x06, 0x10, 0x04, 0x20, 0x00, 0x0C, 0x04, 21, 0, 0x00, 0xEE}, 11, 2, 4},
        {{0x06, 0x10, 0x02, 0x0A, 0x00, 0x0A, 0x04, 21, 0, 0x00, 0xEE}, 11, 12, 2},
        {{0x06, 0x10, 0x04, 0x20, 0x00, 0x06, 0xFF}, 7, 1, 6},
        {{0x06, 0x10, 0x04, 0x20, 0x00, 0x09, 0x04, 21, 0, 0x00, 0xEE}, 11, 1, 9},
        {{0x06, 0x10, 0x04, 0x21, 0x00, 0x06, 0xFF}, 7, 1, 6},
        {{0x06, 0x10, 0x04, 0x21, 0x00, 0x09, 0x04, 21, 0, 0x00, 0x00}, 11, 1, 9},
        {{0x06, 0x10, 0x04, 0x20, 0x00, 0x0A, 0x04, 22, 0, 0x00, 0xEE}, 11, 9, 7},
        {{0x06, 0x10, 0x04, 0x21, 0x00, 0x0B, 0x04, 22, 0, 0x00, 0x00, 0xEE}, 12, 9, 7},
    };
    set_image(LENT(1, 21, 0, 10, 0));
    fill();
    for (size_t form = 0; form < 2; form++)
        for (size_t i = 0; i < sizeof rows / sizeof *rows; i++) {
            const uint8_t *bytes = rows[i].bytes;
            CHECK(refused_at(forms[form](image, 42, bytes, rows[i].length, out, 11), rows[i].number, rows[i].offset));
            CHECK(refused_at(forms[form](image, 40, bytes, rows[i].length, out, 0), rows[i].number, rows[i].offset));
            CHECK(call_refused(forms[form](image, 39, bytes, rows[i].length, out, 11), 1));
        }
    CHECK(untouched() && image_is(LENT(1, 21, 0, 10, 0)));
}

/* Both forms on one table: each call reads and writes its own, and the table keeps neither. */
static void mixed_forms(void) {
    set_image(LENT(1, 21, 4, 6, 1, 1, 22, 1, 2, 1));
    fill();
    /* KNX's acknowledgement is too short for the crate's call */
    CHECK(refused_at(knx_table_datagram(image, 42, LENT(ACK(6, 0x00)), out, 11), 1, 10));
    CHECK(untouched() && image_is(LENT(1, 21, 4, 6, 1, 1, 22, 1, 2, 1)));
    /* one of five bytes is read by the fourth in KNX's call, by the fifth in the crate's */
    CHECK(called(knx_table_datagram_standard(image, 42, LENT(LONG_ACK(6, 0x29, 0x00)), out, 10), KNX_SAID_REPEAT, 0, 0, 0));
    CHECK(image_is(LENT(1, 21, 4, 6, 2, 1, 22, 1, 2, 1)));
    CHECK(called(knx_table_datagram_standard(image, 42, LENT(LONG_ACK(6, 0x00, 0x29)), out, 10), KNX_SAID_SENT, 0, 0, 0));
    CHECK(untouched() && image_is(LENT(1, 21, 4, 7, 0, 1, 22, 1, 2, 1)));
    CHECK(called(knx_table_send(image, 42, 21, LENT(0x11), out, 11), KNX_SAID_NOTHING, 0, 0, 11));
    fill();
    CHECK(called(knx_table_datagram(image, 42, LENT(LONG_ACK(7, 0x00, 0x29)), out, 11), KNX_SAID_REPEAT, 0, 0, 0));
    CHECK(called(knx_table_datagram(image, 42, LENT(LONG_ACK(7, 0x29, 0x00)), out, 11), KNX_SAID_SENT, 0, 0, 0));
    CHECK(untouched() && image_is(LENT(1, 21, 4, 8, 0, 1, 22, 1, 2, 1)));
    /* delivered in one form, a duplicate in the other */
    CHECK(called(knx_table_datagram_standard(image, 42, LENT(REQUEST(4)), out, 10), KNX_SAID_DELIVER, 10, 12, 10));
    CHECK(holds(LENT(ACK(4, 0x00))) && image_is(LENT(1, 21, 5, 8, 0, 1, 22, 1, 2, 1)));
    fill();
    CHECK(call_refused(knx_table_datagram(image, 42, LENT(REQUEST(4)), out, 10), 1) && untouched());
    CHECK(called(knx_table_datagram(image, 42, LENT(REQUEST(4)), out, 11), KNX_SAID_DUPLICATE, 0, 0, 11));
    CHECK(holds(LENT(LONG_ACK(4, 0x00, 0x00))));
    fill();
    CHECK(called(knx_table_datagram(image, 42, LENT(REQUEST(5)), out, 11), KNX_SAID_DELIVER, 10, 12, 11));
    CHECK(holds(LENT(LONG_ACK(5, 0x00, 0x00))) && image_is(LENT(1, 21, 6, 8, 0, 1, 22, 1, 2, 1)));
    fill();
    CHECK(called(knx_table_datagram_standard(image, 42, LENT(REQUEST(5)), out, 10), KNX_SAID_DUPLICATE, 0, 0, 10));
    CHECK(holds(LENT(ACK(5, 0x00))) && image_is(LENT(1, 21, 6, 8, 0, 1, 22, 1, 2, 1)));
    /* a status other than 0 twice: repeat, then give up */
    set_image(LENT(1, 21, 4, 6, 1, 1, 22, 1, 2, 1));
    fill();
    CHECK(called(knx_table_datagram_standard(image, 42, LENT(ACK(6, KNX_STATUS_SEQUENCE_NUMBER)), out, 0), KNX_SAID_REPEAT, 0, 0, 0));
    CHECK(called(knx_table_datagram_standard(image, 42, LENT(ACK(6, 0xFF)), out, 0), KNX_SAID_GIVE_UP, 0, 0, 0));
    CHECK(untouched() && image_is(LENT(0, 0, 0, 0, 0, 1, 22, 1, 2, 1)));
}

/* The session of include/knx.h: channel 21, a gateway at 192.168.1.10, a lamp at 1/2/3. */
static void session(void) {
    static const uint8_t connected[] = {0x06, 0x10, 0x02, 0x06, 0x00, 0x14, 21,   0x00, 0x08, 0x01,
                                        192,  168,  1,    10,   0x0E, 0x57, 0x04, 0x04, 0x11, 0x0A};
    KnxFrame f = knx_frame_parse(connected, sizeof connected);
    CHECK(frame_is(f, 6, 20, KNX_SERVICE_CONNECT_RESPONSE, 20, 0));
    KnxConnectResponse r = knx_connect_response_standard(connected + f.start, f.end - f.start);
    CHECK(r.number == 0 && r.status == KNX_STATUS_NO_ERROR && r.channel == 21 && r.port == 3671);
    CHECK(memcmp(r.address, BYTES(192, 168, 1, 10), 4) == 0 && knx_own_address(r) == KNX_INDIVIDUAL_ADDRESS(1, 1, 10));
    memset(image, 0xEE, LONG);
    CHECK(knx_table_empty(image, KNX_TABLE_SIZE).count == KNX_TABLE_SIZE);
    CHECK(called(knx_table_open(image, KNX_TABLE_SIZE, r.channel), KNX_SAID_NOTHING, 0, 0, 0));
    CHECK(image_is(LENT(1, 21, 0, 0, 0)));
    /* send: a group write of two bytes has 11 bytes of L_Data, 13 of cEMI and 23 as a datagram */
    uint8_t ldata[11], cemi[13];
    KnxWritten w = knx_ldata_build_standard(KNX_CONTROL_1_STANDARD, KNX_CONTROL_2_GROUP, 0, LAMP, 0x00, KNX_APCI_GROUP_VALUE_WRITE,
                                            0, LENT(0x0C, 0x1A), ldata, sizeof ldata);
    CHECK(w.number == 0 && w.count == 11);
    w = knx_cemi_build(KNX_LDATA_REQ, BYTES(0), 0, ldata, sizeof ldata, cemi, sizeof cemi);
    CHECK(w.number == 0 && w.count == 13);
    fill();
    CHECK(call_refused(knx_table_send(image, KNX_TABLE_SIZE, 21, cemi, sizeof cemi, out, 22), 1) && untouched());
    CHECK(called(knx_table_send(image, KNX_TABLE_SIZE, 21, cemi, sizeof cemi, out, 23), KNX_SAID_NOTHING, 0, 0, 23));
    CHECK(holds(LENT(0x06, 0x10, 0x04, 0x20, 0x00, 0x17, 0x04, 21, 0, 0x00, 0x11, 0x00, 0xBC, 0xE0, 0x00, 0x00, 0x0A, 0x03, 0x03,
                     0x00, 0x80, 0x0C, 0x1A)));
    CHECK(image_is(LENT(1, 21, 0, 0, 1)));
    /* no acknowledgement in time: the same datagram once more; then it comes */
    CHECK(called(knx_table_timeout(image, KNX_TABLE_SIZE, 21), KNX_SAID_REPEAT, 0, 0, 0) && image_is(LENT(1, 21, 0, 0, 2)));
    fill();
    CHECK(called(knx_table_datagram_standard(image, KNX_TABLE_SIZE, LENT(ACK(0, 0x00)), out, 10), KNX_SAID_SENT, 0, 0, 0));
    CHECK(untouched() && image_is(LENT(1, 21, 0, 1, 0)));
    /* receive: the switch at 1.1.5 turns the lamp on; out of 9 bytes, of exactly 10, and the same once more */
    static const uint8_t turned_on[] = {0x06, 0x10, 0x04, 0x20, 0x00, 0x15, 0x04, 21,   0,    0x00, 0x29,
                                        0x00, 0xBC, 0xE0, 0x11, 0x05, 0x0A, 0x03, 0x01, 0x00, 0x81};
    CHECK(call_refused(knx_table_datagram_standard(image, KNX_TABLE_SIZE, turned_on, sizeof turned_on, out, 9), 1));
    CHECK(untouched() && image_is(LENT(1, 21, 0, 1, 0)));
    KnxCalled c = knx_table_datagram_standard(image, KNX_TABLE_SIZE, turned_on, sizeof turned_on, out, 10);
    CHECK(called(c, KNX_SAID_DELIVER, 10, 21, 10) && holds(LENT(ACK(0, 0x00))) && image_is(LENT(1, 21, 1, 1, 0)));
    KnxLData l = knx_cemi_ldata_standard(turned_on + c.start, c.end - c.start);
    CHECK(l.number == 0 && l.message_code == KNX_LDATA_IND && l.control_1 == KNX_CONTROL_1_STANDARD && l.control_2 == KNX_CONTROL_2_GROUP);
    CHECK(l.source == SWITCH && l.destination == LAMP && l.apci_code == KNX_APCI_GROUP_VALUE_WRITE && l.six_bit == 1);
    CHECK(KNX_GROUP_MAIN(l.destination) == 1 && KNX_GROUP_MIDDLE(l.destination) == 2 && KNX_GROUP_SUB(l.destination) == 3);
    fill();
    CHECK(called(knx_table_datagram_standard(image, KNX_TABLE_SIZE, turned_on, sizeof turned_on, out, 10), KNX_SAID_DUPLICATE, 0, 0, 10));
    CHECK(holds(LENT(ACK(0, 0x00))) && image_is(LENT(1, 21, 1, 1, 0)));
    /* heartbeat: no affair of the table's */
    static const uint8_t beaten[] = {0x06, 0x10, 0x02, 0x08, 0x00, 0x08, 21, 0x21};
    fill();
    CHECK(refused_at(knx_table_datagram_standard(image, KNX_TABLE_SIZE, beaten, sizeof beaten, out, 10), 12, 2) && untouched());
    f = knx_frame_parse(beaten, sizeof beaten);
    CHECK(frame_is(f, 6, 8, KNX_SERVICE_CONNECTIONSTATE_RESPONSE, 8, 0));
    CHECK(status_is(knx_connectionstate_response(beaten + f.start, f.end - f.start), 21, KNX_STATUS_CONNECTION_ID, 0));
    /* end: the gateway asks for it, and is answered */
    static const uint8_t ended[] = {0x06, 0x10, 0x02, 0x09, 0x00, 0x10, 21, 0x00, 0x08, 0x01, 192, 168, 1, 10, 0x0E, 0x57};
    CHECK(refused_at(knx_table_datagram_standard(image, KNX_TABLE_SIZE, ended, sizeof ended, out, 10), 12, 2) && untouched());
    f = knx_frame_parse(ended, sizeof ended);
    CHECK(frame_is(f, 6, 16, KNX_SERVICE_DISCONNECT_REQUEST, 16, 0));
    KnxDisconnectRequest d = knx_disconnect_request_parse(ended + f.start, f.end - f.start);
    CHECK(d.number == 0 && d.channel == 21 && memcmp(d.address, BYTES(192, 168, 1, 10), 4) == 0 && d.port == 3671);
    CHECK(wrote(knx_disconnect_response_build(d.channel, KNX_STATUS_NO_ERROR, out, 8),
                LENT(0x06, 0x10, 0x02, 0x0A, 0x00, 0x08, 21, 0x00)));
    CHECK(knx_table_close(image, KNX_TABLE_SIZE, d.channel).number == 0 && image_is(BYTES(0), 0));
}

/* Bytes that no call writes: a held byte other than 1, a waiting byte above 2, a free place with contents. */
static void odd_images(void) {
    set_image(LENT(0, 21, 1, 2, 1, 7, 21, 3, 4, 9));
    CHECK(call_refused(knx_table_open(image, 42, 21), 7) && image_is(LENT(0, 21, 1, 2, 1, 7, 21, 3, 4, 9)));
    CHECK(knx_table_open(image, 42, 22).number == 0 && image_is(LENT(1, 22, 0, 0, 0, 1, 21, 3, 4, 2)));
    CHECK(called(knx_table_timeout(image, 42, 21), KNX_SAID_GIVE_UP, 0, 0, 0) && image_is(LENT(1, 22, 0, 0, 0)));
    /* an id that stands twice means its first place */
    set_image(LENT(1, 5, 1, 1, 0, 1, 5, 2, 2, 0));
    CHECK(knx_table_close(image, 42, 5).number == 0 && image_is(LENT(0, 0, 0, 0, 0, 1, 5, 2, 2, 0)));
}

int main(void) {
    names();
    addresses();
    frames();
    hpais();
    connect_responses();
    connect_responses_standard();
    statuses();
    disconnect_requests();
    cemis();
    cemis_standard();
    areas();
    first_records();
    named_types();
    nth_records();
    counts();
    walking();
    ldatas();
    ldatas_standard();
    appending();
    cemi_frames();
    requests();
    tunnelled();
    answers();
    opening();
    waiting();
    datagrams();
    datagrams_standard();
    places();
    mixed_forms();
    session();
    odd_images();
    size_t stack = long_areas();
    printf("C: 2 MiB of additional information in %zu of %d bytes of stack\n", stack, LEAST_STACK);
    printf("C: %d checks, %d failed\n", checks, failures);
    return failures != 0;
}
