/*
 * bench.c: sees that the library and its twin answer alike, and then times each exported call of both. `make bench` builds and runs it;
 * the program is
 *
 *     target/bench/bench [--csv] [--once] [--calls N] [--rounds N] [--seed N] [--only ROW] [--table TABLE]
 *
 * First come N random calls on random histories: refusal number, numbers, answer buffer and table must be the same octets after each, and
 * the first difference ends the program. With --rounds 0 that is all. Then each call is timed on four tables, accepted and in the phase
 * that allows it; the row 'soundness' is a call that the tenant's number refuses right behind the test of the table. A row has the
 * nanoseconds of a call of the library, those of the twin, and the first divided by the second. On both sides they include the memcpy of
 * one record that restores the table, some 5 ns. --csv prints the rows alone, for plot.py. With --once each timed call is made once on
 * each side and nothing is timed, for count.sh.
 */
#define _POSIX_C_SOURCE 199309L

#include "twin.h"

#include <inttypes.h>
#include <stdarg.h>
#include <stdio.h>
#include <stdlib.h>
#include <string.h>
#include <time.h>

enum call {
    TABLE_LENGTH, OPEN, CLOSE, LIST, START, COUNTRY, ADDRESS, BEGIN, INIT, EAP, REPLY, FINAL, ERROR, CONGESTION, GIVE_UP, CHILD_MADE,
    CHILD_DELETED, IKE_DELETE, READ_REQUEST, READ_RESPONSE, WRITE_RESPONSE, PARAMETER, TIMER, CALLS
};

static const char *const call_names[CALLS] = {
    "table_length", "open", "close", "list", "start", "country", "address", "begin", "init", "eap", "reply", "final", "error",
    "congestion", "give_up", "child_made", "child_deleted", "ike_delete", "read_request", "read_response", "write_response", "parameter",
    "timer"
};

/* The phases of a line and the layout of a record, by docs/TABLE.md. */
enum phase { IDLE, IN_COUNTRY, IN_NAME, CHOSEN, IN_INIT, AUTH, IN_EAP, SURE, LIVE };

enum {
    TIME_AT = 1,
    PHASE_AT = 5,
    DATA_AT = 6,
    TURN_AT = 23,
    IDENTIFIER_AT = 24,
    HOLD_COUNT_AT = 25,
    CHILD_COUNT_AT = 26,
    HOLDS_AT = 27,
    HOLD_LENGTH = 22,
    CHILDREN_AT = 203,
    CHILD_LENGTH = 5,
    RECORD_LENGTH = 243
};

/* Rooms with octets behind the longest slice that is lent, so that a call that writes too far is seen. */
enum { TABLE_ROOM = 8192, BUFFER_ROOM = 4096, SLICE_ROOM = 8192 };

/* ---- One call on either side ---- */

struct side {
    uint64_t (*table_length)(void);
    uint64_t (*open)(uint8_t *, size_t, uint64_t, uint64_t);
    uint64_t (*close)(uint8_t *, size_t, uint64_t, uint64_t);
    uint64_t (*list)(const uint8_t *, size_t, uint64_t, uint8_t *, size_t, scal_answer *);
    uint64_t (*start)(uint8_t *, size_t, uint64_t, uint64_t, uint64_t, uint64_t, uint64_t, uint64_t, uint64_t, uint64_t, uint64_t,
                      const uint8_t *, size_t, uint8_t *, size_t, scal_answer *);
    uint64_t (*country)(uint8_t *, size_t, uint64_t, uint64_t, uint64_t, uint64_t, const uint8_t *, size_t, const uint8_t *, size_t,
                        uint8_t *, size_t, scal_answer *);
    uint64_t (*address)(uint8_t *, size_t, uint64_t, uint64_t, uint64_t, const uint8_t *, size_t, scal_answer *);
    uint64_t (*begin)(uint8_t *, size_t, uint64_t, uint64_t, uint64_t, scal_answer *);
    uint64_t (*init)(uint8_t *, size_t, uint64_t, uint64_t, uint64_t, scal_answer *);
    uint64_t (*eap)(uint8_t *, size_t, uint64_t, uint64_t, uint64_t, const uint8_t *, size_t, scal_answer *);
    uint64_t (*reply)(uint8_t *, size_t, uint64_t, uint64_t, uint64_t, const uint8_t *, size_t, const uint8_t *, size_t, uint8_t *, size_t,
                      scal_answer *);
    uint64_t (*final)(uint8_t *, size_t, uint64_t, uint64_t, uint64_t, uint64_t, scal_answer *);
    uint64_t (*error)(uint8_t *, size_t, uint64_t, uint64_t, uint64_t, uint64_t, scal_answer *);
    uint64_t (*congestion)(uint8_t *, size_t, uint64_t, uint64_t, uint64_t, uint64_t, uint64_t, scal_answer *);
    uint64_t (*give_up)(uint8_t *, size_t, uint64_t, uint64_t, uint64_t, scal_answer *);
    uint64_t (*child_made)(uint8_t *, size_t, uint64_t, uint64_t, uint64_t, uint64_t, uint64_t, scal_answer *);
    uint64_t (*child_deleted)(uint8_t *, size_t, uint64_t, uint64_t, uint64_t, uint64_t, scal_answer *);
    uint64_t (*ike_delete)(uint8_t *, size_t, uint64_t, uint64_t, uint64_t, scal_answer *);
    uint64_t (*read_request)(const uint8_t *, size_t, scal_packet_fields *);
    uint64_t (*read_response)(const uint8_t *, size_t, scal_packet_fields *);
    uint64_t (*write_response)(uint64_t, const uint8_t *, size_t, const uint8_t *, size_t, uint8_t *, size_t, scal_packet_fields *);
    uint64_t (*parameter)(const uint8_t *, size_t, uint64_t, scal_parameter_fields *);
    uint64_t (*timer)(uint64_t, scal_timer_fields *);
};

#define SIDE(prefix)                                                                                                                  \
    {                                                                                                                                 \
        prefix##_table_length, prefix##_open, prefix##_close, prefix##_list, prefix##_start, prefix##_country, prefix##_address,      \
        prefix##_begin, prefix##_init, prefix##_eap, prefix##_reply, prefix##_final, prefix##_error, prefix##_congestion,             \
        prefix##_give_up, prefix##_child_made, prefix##_child_deleted, prefix##_ike_delete, prefix##_read_request,                    \
        prefix##_read_response, prefix##_write_response, prefix##_parameter, prefix##_timer                                           \
    }

static const struct side library = SIDE(scal), twin = SIDE(twin);

/* Each of these functions moves the code of the twin and of the library behind it by 16 octets. A small loop's speed depends on where it
 * lies, so that the times to believe are the best of four programs, with PLACEMENT 0 to 3: `make speed` runs them, and plot.py puts their
 * rows together. */
#ifndef PLACEMENT
#define PLACEMENT 0
#endif
#if PLACEMENT > 0
static volatile int placed;
#define PLACE(number)          \
    void place_##number(void); \
    void place_##number(void) { placed = number; }
PLACE(1)
#endif
#if PLACEMENT > 1
PLACE(2)
#endif
#if PLACEMENT > 2
PLACE(3)
#endif

/* All that a call may be lent; each call takes its own part. */
struct lent {
    /* Two tables take turns, so that no call reads a record that was restored right before it. */
    uint8_t *tables[2];
    size_t table_length;
    uint8_t *buffer;
    size_t buffer_length;
    uint64_t tenant, line, time;
    uint64_t place, mcc, registered, registered_mcc, registered_mnc, version;
    uint64_t replied, good, number, authenticated, timer, spi, session, identifier, at;
    const uint8_t *text, *networks, *addresses, *packet, *parameters, *nas;
    size_t text_length, networks_length, addresses_length, packet_length, parameters_length, nas_length;
    /* The record that is restored after each call, and its octets. */
    const uint8_t *restored;
    size_t restored_at, restored_length;
};

/* What a call answers beside its refusal number and the octets of its buffer and its table. */
struct answered {
    scal_answer answer;
    scal_packet_fields packet;
    scal_parameter_fields parameter;
    scal_timer_fields timer;
};

#define REPEAT(expression)                                                                \
    for (size_t i = 0; i < times; i++) {                                                  \
        uint8_t *table = lent->tables[i & 1];                                             \
        refusals |= (expression);                                                         \
        memcpy(table + lent->restored_at, lent->restored, lent->restored_length);         \
    }                                                                                     \
    break
#define REPEAT_PACKET(expression)                                                         \
    for (size_t i = 0; i < times; i++)                                                    \
        refusals |= (expression);                                                         \
    break
#define PAIR table, lent->table_length, lent->tenant, lent->line
#define EVENT PAIR, lent->time
#define SLICE(name) lent->name, lent->name##_length

/* Makes a call so many times and returns its refusal numbers, one put over the other. */
static uint64_t repeat(const struct side *side, enum call call, const struct lent *lent, struct answered *answered, size_t times)
{
    scal_answer *answer = &answered->answer;
    uint64_t refusals = 0;

    switch (call) {
    case TABLE_LENGTH: REPEAT_PACKET(side->table_length());
    case OPEN: REPEAT(side->open(PAIR));
    case CLOSE: REPEAT(side->close(PAIR));
    case LIST: REPEAT(side->list(table, lent->table_length, lent->tenant, SLICE(buffer), answer));
    case START:
        REPEAT(side->start(EVENT, lent->place, lent->mcc, lent->registered, lent->registered_mcc, lent->registered_mnc, lent->version,
                           SLICE(text), SLICE(buffer), answer));
    case COUNTRY: REPEAT(side->country(EVENT, lent->replied, SLICE(networks), SLICE(text), SLICE(buffer), answer));
    case ADDRESS: REPEAT(side->address(EVENT, SLICE(addresses), answer));
    case BEGIN: REPEAT(side->begin(EVENT, answer));
    case INIT: REPEAT(side->init(EVENT, answer));
    case EAP: REPEAT(side->eap(EVENT, SLICE(packet), answer));
    case REPLY: REPEAT(side->reply(EVENT, SLICE(parameters), SLICE(nas), SLICE(buffer), answer));
    case FINAL: REPEAT(side->final(EVENT, lent->good, answer));
    case ERROR: REPEAT(side->error(EVENT, lent->number, answer));
    case CONGESTION: REPEAT(side->congestion(EVENT, lent->authenticated, lent->timer, answer));
    case GIVE_UP: REPEAT(side->give_up(EVENT, answer));
    case CHILD_MADE: REPEAT(side->child_made(EVENT, lent->spi, lent->session, answer));
    case CHILD_DELETED: REPEAT(side->child_deleted(EVENT, lent->spi, answer));
    case IKE_DELETE: REPEAT(side->ike_delete(EVENT, answer));
    case READ_REQUEST: REPEAT_PACKET(side->read_request(SLICE(packet), &answered->packet));
    case READ_RESPONSE: REPEAT_PACKET(side->read_response(SLICE(packet), &answered->packet));
    case WRITE_RESPONSE:
        REPEAT_PACKET(side->write_response(lent->identifier, SLICE(parameters), SLICE(nas), SLICE(buffer), &answered->packet));
    case PARAMETER: REPEAT_PACKET(side->parameter(SLICE(parameters), lent->at, &answered->parameter));
    case TIMER: REPEAT_PACKET(side->timer(lent->timer, &answered->timer));
    case CALLS: break;
    }
    return refusals;
}

/* ---- Comparing one call ---- */

static void fail(const char *form, ...)
{
    va_list values;

    fflush(stdout);
    va_start(values, form);
    vfprintf(stderr, form, values);
    va_end(values);
    fputc('\n', stderr);
    exit(EXIT_FAILURE);
}

/* What both sides are lent in turn: their own tables and buffers. */
static uint8_t library_table[TABLE_ROOM], twin_table[TABLE_ROOM];
static uint8_t library_buffer[BUFFER_ROOM], twin_buffer[BUFFER_ROOM];

static void see_same(enum call call, const struct lent *lent, const char *what, const void *library_octets, const void *twin_octets,
                     size_t length)
{
    const uint8_t *a = library_octets, *b = twin_octets;

    for (size_t i = 0; i < length; i++)
        if (a[i] != b[i])
            fail("%s: octet %zu of the %s is %u, the twin's %u (tenant %" PRIu64 ", line %" PRIu64 ", time %" PRIu64 ")", call_names[call],
                 i, what, (unsigned)a[i], (unsigned)b[i], lent->tenant, lent->line, lent->time);
}

/* Makes a call on both sides, sees that they answer alike, and returns the refusal number. Tables and buffers are alike before. */
static uint64_t compare_call(enum call call, const struct lent *lent)
{
    struct lent lent_library = *lent, lent_twin = *lent;
    struct answered library_answered, twin_answered;
    uint64_t library_refusal, twin_refusal;

    lent_library.tables[0] = library_table;
    lent_library.buffer = library_buffer;
    lent_library.restored = library_table;
    lent_library.restored_length = 0;
    lent_twin.tables[0] = twin_table;
    lent_twin.buffer = twin_buffer;
    lent_twin.restored = twin_table;
    lent_twin.restored_length = 0;
    memset(&library_answered, 0xa5, sizeof library_answered);
    memset(&twin_answered, 0xa5, sizeof twin_answered);
    library_refusal = repeat(&library, call, &lent_library, &library_answered, 1);
    twin_refusal = repeat(&twin, call, &lent_twin, &twin_answered, 1);
    if (library_refusal != twin_refusal)
        fail("%s: returns %" PRIu64 ", the twin %" PRIu64 " (tenant %" PRIu64 ", line %" PRIu64 ", time %" PRIu64 ")", call_names[call],
             library_refusal, twin_refusal, lent->tenant, lent->line, lent->time);
    see_same(call, lent, "numbers", &library_answered, &twin_answered, sizeof library_answered);
    see_same(call, lent, "answer buffer", library_buffer, twin_buffer, sizeof library_buffer);
    see_same(call, lent, "table", library_table, twin_table, sizeof library_table);
    return library_refusal;
}

/* ---- Random inputs ---- */

static uint64_t random_state = 1;

/* xorshift64*: with one seed a program makes the same histories each time. */
static uint64_t random_number(void)
{
    random_state ^= random_state >> 12;
    random_state ^= random_state << 25;
    random_state ^= random_state >> 27;
    return random_state * UINT64_C(2685821657736338717);
}

static uint64_t below(uint64_t count)
{
    return (random_number() >> 32) % count;
}

/* True once in so many times. */
static int once_in(uint64_t count)
{
    return below(count) == 0;
}

static uint64_t number_at(const uint8_t *octets, size_t count)
{
    uint64_t number = 0;

    for (size_t i = 0; i < count; i++)
        number = number << 8 | octets[i];
    return number;
}

static void put_number(uint8_t *octets, size_t count, uint64_t number)
{
    while (count-- > 0) {
        octets[count] = (uint8_t)number;
        number >>= 8;
    }
}

/* A number of a range or, now and then, one right behind its ends or far out. */
static uint64_t near_range(uint64_t least, uint64_t most)
{
    if (!once_in(24))
        return least + random_number() % (most - least + 1);
    switch (below(3)) {
    case 0: return least - 1;
    case 1: return most + 1;
    default: return random_number();
    }
}

static const uint16_t mccs[] = {0, 1, 262, 310, 999}, mncs[] = {0, 1, 2, 10, 70, 999};

/* One of thirty PLMNs, by its number. */
static uint64_t mcc_of(uint64_t network)
{
    return mccs[network / 6];
}

static uint64_t mnc_of(uint64_t network)
{
    return mncs[network % 6];
}

/* One of 18 addresses; halves are shared and swapped among those of version 6, and one has the octets of a version 4 address. */
static void put_address(uint8_t *address, uint64_t which)
{
    static const uint64_t halves[3] = {UINT64_C(0xc000020700000000), UINT64_C(0x20010db800000001), 0x1234};

    memset(address, 0, SCAL_ADDRESS_LENGTH);
    address[0] = which < 9 ? 4 : 6;
    if (which < 9) {
        put_number(address + 1, 4, UINT64_C(0xc0000207) + which * (which % 2 == 0 ? 1 : 65536));
    } else {
        put_number(address + 1, 8, halves[which % 3]);
        put_number(address + 9, 8, which < 12 ? 0 : halves[(which + 1 + which / 15) % 3]);
    }
}

/* The numbers below count in a random order. */
static void shuffle(uint64_t *order, uint64_t count)
{
    for (uint64_t i = 0; i < count; i++) {
        uint64_t other = below(i + 1);

        order[i] = order[other];
        order[other] = i;
    }
}

/* Changes, strikes out or puts in one octet. */
static size_t damage(uint8_t *octets, size_t length)
{
    static const char likely[] = "\t\n0019afgAz-.\r ";
    size_t at = (size_t)below(length + 1);
    uint8_t octet = once_in(2) ? (uint8_t)below(256) : (uint8_t)likely[below(sizeof likely - 1)];

    if (at == length || once_in(3)) {
        memmove(octets + at + 1, octets + at, length - at);
        octets[at] = octet;
        return length + 1;
    }
    if (once_in(2)) {
        memmove(octets + at, octets + at + 1, length - at - 1);
        return length - 1;
    }
    octets[at] = once_in(2) ? octet : (uint8_t)(octets[at] ^ 1u << below(8));
    return length;
}

static size_t add_text(uint8_t *text, size_t length, const char *form, ...)
{
    va_list values;
    int added;

    va_start(values, form);
    added = vsnprintf((char *)text + length, SLICE_ROOM - length, form, values);
    va_end(values);
    return length + (size_t)added;
}

static size_t add_network(uint8_t *text, size_t length, uint64_t network)
{
    const char *form = mnc_of(network) < 100 && once_in(2) ? "\t%03" PRIu64 "\t%02" PRIu64 : "\t%03" PRIu64 "\t%03" PRIu64;

    return add_text(text, length, form, mcc_of(network), mnc_of(network));
}

/* A configuration text, at times damaged, too long or with one record too many. */
static size_t put_text(uint8_t *text)
{
    static const char name_octets[] = "abcxyzABCXYZ0189-.";
    uint64_t order[30], count;
    size_t length = add_network(text, add_text(text, 0, "home"), below(30));

    length = add_text(text, length, "\n");
    switch (below(6)) {
    case 0:
        length = add_text(text, length, "node\tname\t");
        for (count = once_in(8) ? 252 + below(3) : 1 + below(40); count > 0; count--)
            text[length++] = (uint8_t)name_octets[below(sizeof name_octets - 1)];
        length = add_text(text, length, "\n");
        break;
    case 1: length = add_text(text, length, "node\tv4\t%08" PRIx64 "\n", UINT64_C(0xc0000207) + 2 * below(3)); break;
    case 2: length = add_text(text, length, "node\tv6\t%016" PRIx64 "%016" PRIx64 "\n", UINT64_C(0xc000020700000000), below(2)); break;
    default: break;
    }
    shuffle(order, 30);
    count = once_in(8) ? 15 + below(3) : below(6);
    for (uint64_t i = 0; i < count; i++) {
        length = add_network(text, add_text(text, length, "plmn"), order[once_in(200) ? 0 : i]);
        length = add_text(text, length, "\t%" PRIu64 "\n", once_in(20) ? 250 + below(8) : below(4));
    }
    shuffle(order, 30);
    count = once_in(8) ? 15 + below(3) : below(8);
    for (uint64_t i = 0; i < count; i++)
        length = add_text(text, add_network(text, add_text(text, length, "bar"), order[once_in(200) ? 0 : i]), "\n");
    if (once_in(10))
        length = damage(text, length);
    if (once_in(50))
        while (length < SCAL_TEXT_MAX - 4 + below(8))
            text[length++] = '\n';
    return length;
}

static size_t put_networks(uint8_t *networks)
{
    uint64_t count = once_in(10) ? 15 + below(3) : below(5);

    for (uint64_t i = 0; i < count; i++) {
        uint64_t network = below(30);

        put_number(networks + 4 * i, 2, once_in(200) ? 1000 : mcc_of(network));
        put_number(networks + 4 * i + 2, 2, once_in(200) ? 1000 : mnc_of(network));
    }
    return (size_t)(4 * count - (count > 0 && once_in(50)));
}

static size_t put_addresses(uint8_t *addresses)
{
    uint64_t count = once_in(10) ? 15 + below(3) : below(6);
    size_t length = (size_t)(SCAL_ADDRESS_LENGTH * count);

    for (uint64_t i = 0; i < count; i++)
        put_address(addresses + SCAL_ADDRESS_LENGTH * i, below(18));
    return length > 0 && once_in(20) ? damage(addresses, length) : length;
}

static size_t put_parameters(uint8_t *parameters)
{
    uint64_t count = once_in(10) ? below(12) : below(4);
    size_t length = 0;

    for (uint64_t i = 0; i < count; i++) {
        uint64_t value = once_in(8) ? below(256) : below(12);

        parameters[length++] = (uint8_t)below(256);
        parameters[length++] = (uint8_t)value;
        while (value-- > 0)
            parameters[length++] = (uint8_t)below(256);
    }
    return once_in(12) ? damage(parameters, length) : length;
}

static size_t put_nas(uint8_t *nas)
{
    size_t length = once_in(10) ? (size_t)(2046 + below(4)) : (size_t)below(24);

    for (size_t i = 0; i < length; i++)
        nas[i] = (uint8_t)(i + length);
    return length;
}

/* A packet of a kind: Start, a NAS request, Success, a NAS response or Stop, at times with extensions or damaged. */
static size_t put_packet(uint8_t *packet, unsigned kind, uint64_t identifier)
{
    static const uint8_t codes[5] = {1, 1, 3, 2, 2}, messages[5] = {1, 2, 0, 2, 4};
    size_t length = 14, added;

    put_number(packet, 14, 0);
    packet[0] = codes[kind];
    packet[1] = (uint8_t)identifier;
    put_number(packet + 4, 8, UINT64_C(0xfe0028af00000003));
    packet[12] = messages[kind];
    packet[13] = once_in(8) ? (uint8_t)below(256) : 0;
    if (kind == 3) {
        added = put_parameters(packet + length + 2);
        put_number(packet + length, 2, added);
        length += 2 + added;
    }
    if (kind == 1 || kind == 3) {
        added = put_nas(packet + length + 2);
        put_number(packet + length, 2, added);
        length += 2 + added;
    }
    if (kind == 2)
        length = 4;
    else if (once_in(8))
        for (uint64_t more = below(4); more > 0; more--)
            packet[length++] = (uint8_t)below(256);
    put_number(packet + 2, 2, length);
    return once_in(20) ? damage(packet, length) : length;
}

/* A record of a pair, sound unless one of many small accidents happens where accidents may. */
static void put_record(uint8_t *record, uint64_t pair, int accidents)
{
#define ACCIDENT (accidents && once_in(60))
    uint64_t time = once_in(10) ? SCAL_TIME_MAX - below(3) : below(2000), phase = ACCIDENT ? 9 : below(9);
    uint64_t most = phase == IDLE || ACCIDENT ? 8 : 7, order[18], holds, children;
    uint8_t *data = record + DATA_AT;

    memset(record, 0, RECORD_LENGTH);
    record[0] = (uint8_t)(ACCIDENT ? 65 : pair);
    put_number(record + TIME_AT, 4, time);
    record[PHASE_AT] = (uint8_t)phase;
    shuffle(order, 18);
    if (phase == IN_COUNTRY || phase == IN_NAME) {
        uint64_t network = below(30);
        int is_registered = once_in(2), is_abroad = phase == IN_COUNTRY || once_in(2);

        data[0] = (uint8_t)(ACCIDENT ? below(4) : is_abroad ? 2 : 1);
        put_number(data + 1, 2, ACCIDENT ? 1000 : is_abroad ? mcc_of(below(30)) : 0);
        data[3] = (uint8_t)(ACCIDENT ? below(3) : (uint64_t)is_registered);
        put_number(data + 4, 2, ACCIDENT ? 1000 : is_registered ? mcc_of(network) : 0);
        put_number(data + 6, 2, ACCIDENT ? 1000 : is_registered ? mnc_of(network) : 0);
        data[8] = (uint8_t)(ACCIDENT ? below(8) : once_in(2) ? 4 : 6);
    } else if (phase != IDLE) {
        put_address(data, order[ACCIDENT ? below(8) : 17]);
    }
    if (phase == IN_EAP) {
        record[TURN_AT] = (uint8_t)(ACCIDENT ? below(5) : 1 + below(3));
        record[IDENTIFIER_AT] = (uint8_t)below(256);
    }
    holds = once_in(3) ? most : below(most + 1);
    record[HOLD_COUNT_AT] = (uint8_t)(ACCIDENT ? below(10) : holds);
    for (uint64_t i = 0; i < holds; i++) {
        uint8_t *hold = record + HOLDS_AT + i * HOLD_LENGTH;

        put_address(hold, order[ACCIDENT ? below(8) : i]);
        put_number(hold + 17, 5, once_in(3) ? 0 : time + (uint64_t)!ACCIDENT + below(40) * (uint64_t)!accidents);
        if (once_in(8))
            put_number(hold + 17, 5, UINT64_C(0x100000000) + below(UINT64_C(0xff00000000)));
    }
    children = phase == LIVE || ACCIDENT ? once_in(3) ? 8 : below(9) : 0;
    record[CHILD_COUNT_AT] = (uint8_t)(ACCIDENT ? below(10) : children);
    for (uint64_t i = 0; i < children; i++) {
        uint8_t *child = record + CHILDREN_AT + i * CHILD_LENGTH;
        uint64_t which = ACCIDENT ? below(8) : i;

        put_number(child, 4, ACCIDENT ? 255 + below(2) : 256 + which + 4096 * (which & 1));
        child[4] = (uint8_t)(ACCIDENT ? 16 * below(2) : 1 + below(15));
    }
    if (ACCIDENT)
        record[below(RECORD_LENGTH)] ^= (uint8_t)(1 + below(255));
#undef ACCIDENT
}

/* ---- Comparing histories ---- */

static uint8_t slices[6][SLICE_ROOM];

static uint8_t *open_record(uint8_t *table, uint64_t tenant, uint64_t line)
{
    for (size_t i = 0; i < SCAL_RECORDS; i++)
        if (table[i * RECORD_LENGTH] == 1 + 4 * tenant + line)
            return table + i * RECORD_LENGTH;
    return NULL;
}

/* Both tables become empty or get random records, each sound and of its own pair. */
static void new_tables(void)
{
    uint64_t order[64], lines = once_in(2) ? 0 : below(SCAL_RECORDS + 1);

    memset(library_table, 0, sizeof library_table);
    shuffle(order, 64);
    for (uint64_t i = 0; i < lines; i++)
        put_record(library_table + i * RECORD_LENGTH, 1 + order[i], 0);
    memcpy(twin_table, library_table, sizeof twin_table);
}

/* An event that the phase of a line allows, or give up. */
static enum call likely_call(const uint8_t *record)
{
    static const enum call of_phase[9] = {START, COUNTRY, ADDRESS, BEGIN, INIT, EAP, EAP, FINAL, CHILD_MADE};

    if (record == NULL)
        return OPEN;
    if (once_in(16))
        return GIVE_UP;
    if (record[PHASE_AT] == IN_EAP && record[TURN_AT] != 3)
        return REPLY;
    if (record[PHASE_AT] >= AUTH && record[PHASE_AT] <= SURE && once_in(4))
        return once_in(3) ? ERROR : CONGESTION;
    if (record[PHASE_AT] == LIVE && once_in(2))
        return once_in(6) ? IKE_DELETE : CHILD_DELETED;
    return of_phase[record[PHASE_AT]];
}

/* Chooses a pair and a time, and then a call with all that it may be lent. */
static enum call put_call(struct lent *lent)
{
    uint64_t some = below(SCAL_RECORDS), network = below(30), least;
    const uint8_t *record = library_table + some * RECORD_LENGTH;
    enum call call;

    memset(lent, 0, sizeof *lent);
    lent->tenant = record[0] != 0 ? (uint64_t)(record[0] - 1) / 4 : below(16);
    lent->line = record[0] != 0 ? (uint64_t)(record[0] - 1) % 4 : below(4);
    if (once_in(8)) {
        lent->tenant = once_in(6) ? 15 + below(3) : below(16);
        lent->line = once_in(6) ? 3 + below(3) : below(4);
    }
    if (once_in(400))
        lent->tenant = random_number();
    record = lent->tenant < 16 && lent->line < 4 ? open_record(library_table, lent->tenant, lent->line) : NULL;
    call = once_in(4) ? (enum call)below(CALLS) : likely_call(record);
    lent->time = record == NULL ? below(100) : number_at(record + TIME_AT, 4);
    lent->time += once_in(20) ? below(2000000) : once_in(3) ? below(60) : below(3);
    if (once_in(40))
        lent->time -= 1 + below(3);
    if (once_in(200))
        lent->time = SCAL_TIME_MAX - 1 + below(4);

    lent->table_length = once_in(300) ? (size_t)(SCAL_TABLE_LENGTH - 1 + 2 * below(2)) : SCAL_TABLE_LENGTH;
    least = call == LIST ? SCAL_LISTING_MIN : call == START || call == COUNTRY ? SCAL_NAME_MIN : SCAL_REPLY_MIN;
    lent->buffer_length = (size_t)(least + below(40) - (once_in(20) ? 20 : 0));
    if (once_in(200))
        lent->buffer_length = 0;

    lent->place = near_range(0, 2);
    lent->mcc = lent->place == 2 ? mcc_of(below(30)) : 0;
    lent->registered = near_range(0, 1);
    lent->registered_mcc = lent->registered == 1 ? mcc_of(network) : 0;
    lent->registered_mnc = lent->registered == 1 ? mnc_of(network) : 0;
    if (once_in(30)) {
        uint64_t *const codes[3] = {&lent->mcc, &lent->registered_mcc, &lent->registered_mnc};

        *codes[below(3)] = near_range(0, 999);
    }
    lent->version = once_in(24) ? below(9) : once_in(3) ? 6 : 4;
    lent->replied = near_range(0, 1) | (uint64_t)once_in(2);
    lent->good = near_range(0, 1) | (uint64_t)once_in(2);
    lent->number = near_range(1, SCAL_ERROR_MAX);
    lent->authenticated = near_range(0, 1) | (uint64_t)once_in(2);
    lent->timer = near_range(0, 255);
    lent->spi = 252 + below(40) + 4096 * below(2);
    if (record != NULL && record[CHILD_COUNT_AT] > 0 && once_in(call == CHILD_MADE ? 20 : 2))
        lent->spi = number_at(record + CHILDREN_AT + below(record[CHILD_COUNT_AT]) * CHILD_LENGTH, 4);
    if (once_in(40))
        lent->spi = near_range(SCAL_SPI_MIN, UINT32_MAX);
    lent->session = near_range(1, SCAL_SESSION_MAX);
    lent->identifier = near_range(0, 255);

    lent->text = slices[0];
    lent->networks = slices[1];
    lent->addresses = slices[2];
    lent->packet = slices[3];
    lent->parameters = slices[4];
    lent->nas = slices[5];
    if (call == START || call == COUNTRY)
        lent->text_length = put_text(slices[0]);
    if (call == COUNTRY)
        lent->networks_length = lent->replied == 0 && !once_in(20) ? 0 : put_networks(slices[1]);
    if (call == ADDRESS)
        lent->addresses_length = put_addresses(slices[2]);
    if (call == EAP || call == READ_REQUEST || call == READ_RESPONSE) {
        unsigned due = record != NULL && record[PHASE_AT] == AUTH ? 0 : 1 + (unsigned)below(2);
        unsigned kind = once_in(3) ? (unsigned)below(5) : call == READ_RESPONSE ? 3 : due;

        lent->packet_length = put_packet(slices[3], kind, record != NULL && !once_in(4) ? record[IDENTIFIER_AT] : below(256));
    }
    if (call == REPLY || call == WRITE_RESPONSE || call == PARAMETER)
        lent->parameters_length = put_parameters(slices[4]);
    lent->at = near_range(0, lent->parameters_length);
    lent->nas_length = put_nas(slices[5]);
    return call;
}

/* One random call of a history; at times on a table with one octet changed, which is put back where the table is then unsound. */
static uint64_t compare_random(enum call *call)
{
    struct lent lent;
    size_t changed = (size_t)below(SCAL_TABLE_LENGTH);
    uint8_t octet = library_table[changed];
    int is_changed;
    uint64_t refusal;

    *call = put_call(&lent);
    is_changed = *call > TABLE_LENGTH && *call < READ_REQUEST && once_in(30);
    for (size_t i = 0; i < BUFFER_ROOM; i += 8) {
        uint64_t word = random_number();

        memcpy(library_buffer + i, &word, 8);
    }
    memcpy(twin_buffer, library_buffer, sizeof twin_buffer);
    if (is_changed)
        library_table[changed] = twin_table[changed] = (uint8_t)(octet ^ (1 + below(255)));
    refusal = compare_call(*call, &lent);
    if (is_changed && refusal == SCAL_REFUSED_TABLE)
        library_table[changed] = twin_table[changed] = octet;
    return refusal;
}

/* A call that tests soundness and little else: of a tenant that there is none of, it is refused by 1 or 2. */
static uint64_t compare_soundness(void)
{
    struct lent lent = {.table_length = SCAL_TABLE_LENGTH, .tenant = SCAL_TENANT_MAX + 1};

    return compare_call(CLOSE, &lent);
}

/* So many random calls; then so many tables with one record of random octets in their ranges or right behind these. Each call must have
 * been accepted and each refusal number given, since the comparison says nothing of the others. */
static void compare(uint64_t calls, FILE *out)
{
    uint64_t refused[SCAL_REFUSED_HOLDS + 1] = {0}, accepted[CALLS] = {0}, sound = 0, trials = calls / 2;

    for (uint64_t i = 0; i < calls; i++) {
        enum call call;
        uint64_t refusal;

        if (i % 400 == 0) {
            new_tables();
            if (compare_soundness() != SCAL_REFUSED_PAIR)
                fail("a table to begin with is not sound");
        }
        refusal = compare_random(&call);
        accepted[call] += refusal == SCAL_ACCEPTED || call == TABLE_LENGTH;
        refused[call == TABLE_LENGTH ? SCAL_ACCEPTED : refusal]++;
    }
    for (uint64_t i = 0; i < trials; i++) {
        uint8_t octets[RECORD_LENGTH], *record;
        size_t at = (size_t)below(SCAL_RECORDS) * RECORD_LENGTH;

        if (i % 1000 == 0)
            new_tables();
        record = library_table + at;
        memcpy(octets, record, RECORD_LENGTH);
        put_record(record, once_in(20) ? 1 + below(64) : octets[0] != 0 ? octets[0] : 1 + below(64), 1);
        memcpy(twin_table + at, record, RECORD_LENGTH);
        if (compare_soundness() == SCAL_REFUSED_PAIR) {
            sound++;
        } else {
            memcpy(record, octets, RECORD_LENGTH);
            memcpy(twin_table + at, octets, RECORD_LENGTH);
        }
    }
    for (enum call call = TABLE_LENGTH; call < CALLS; call++)
        if (accepted[call] == 0)
            fail("no call of %s was accepted among %" PRIu64, call_names[call], calls);
    fprintf(out, "%" PRIu64 " calls on random histories answered alike; by refusal number:", calls);
    for (size_t i = 0; i <= SCAL_REFUSED_HOLDS; i++) {
        if (refused[i] == 0)
            fail("refusal number %zu was not given among %" PRIu64 " calls", i, calls);
        fprintf(out, " %zu: %" PRIu64, i, refused[i]);
    }
    fprintf(out, "\n%" PRIu64 " random records judged alike, %" PRIu64 " of them sound\n", trials, sound);
}

/* ---- Timing ---- */

struct shape {
    const char *name;
    const char *what;
    size_t lines, holds, children;
};

static const struct shape shapes[] = {
    {"one", "one live line with one child", 1, 0, 1},
    {"half", "16 live lines with one child each", 16, 0, 1},
    {"full", "32 live lines with one child each", 32, 0, 1},
    {"crowded", "32 live lines with seven holds and eight children each", 32, 7, 8},
};

enum { SHAPES = sizeof shapes / sizeof shapes[0] };

/* A timed call: the phase that its line is in before, and what it must be refused by. */
struct row {
    const char *name;
    enum call call;
    enum phase phase;
    uint64_t refusal;
    int has_table;
};

static const struct row rows[] = {
    {"soundness", CLOSE, LIVE, SCAL_REFUSED_PAIR, 1},
    {"open", OPEN, IDLE, SCAL_ACCEPTED, 1},
    {"close", CLOSE, LIVE, SCAL_ACCEPTED, 1},
    {"list", LIST, LIVE, SCAL_ACCEPTED, 1},
    {"start", START, IDLE, SCAL_ACCEPTED, 1},
    {"country", COUNTRY, IN_COUNTRY, SCAL_ACCEPTED, 1},
    {"address", ADDRESS, IN_NAME, SCAL_ACCEPTED, 1},
    {"begin", BEGIN, CHOSEN, SCAL_ACCEPTED, 1},
    {"init", INIT, IN_INIT, SCAL_ACCEPTED, 1},
    {"eap", EAP, IN_EAP, SCAL_ACCEPTED, 1},
    {"reply", REPLY, IN_EAP, SCAL_ACCEPTED, 1},
    {"final", FINAL, SURE, SCAL_ACCEPTED, 1},
    {"error", ERROR, IN_EAP, SCAL_ACCEPTED, 1},
    {"congestion", CONGESTION, SURE, SCAL_ACCEPTED, 1},
    {"give_up", GIVE_UP, CHOSEN, SCAL_ACCEPTED, 1},
    {"child_made", CHILD_MADE, LIVE, SCAL_ACCEPTED, 1},
    {"child_deleted", CHILD_DELETED, LIVE, SCAL_ACCEPTED, 1},
    {"ike_delete", IKE_DELETE, LIVE, SCAL_ACCEPTED, 1},
    {"table_length", TABLE_LENGTH, IDLE, SCAL_TABLE_LENGTH, 0},
    {"read_request", READ_REQUEST, IDLE, SCAL_ACCEPTED, 0},
    {"read_response", READ_RESPONSE, IDLE, SCAL_ACCEPTED, 0},
    {"write_response", WRITE_RESPONSE, IDLE, SCAL_ACCEPTED, 0},
    {"parameter", PARAMETER, IDLE, SCAL_ACCEPTED, 0},
    {"timer", TIMER, IDLE, SCAL_ACCEPTED, 0},
};

enum { ROWS = sizeof rows / sizeof rows[0] };

/* The line's time in the timed tables; the call's is one second later. */
enum { TIMED_LINE = 1000 };

/* Addresses of both versions in turn, all of them different within a line. */
static void put_timed_address(uint8_t *address, size_t line, size_t place)
{
    memset(address, 0, SCAL_ADDRESS_LENGTH);
    if ((line + place) % 2 == 0) {
        address[0] = 4;
        put_number(address + 1, 4, UINT64_C(0x0a000000) + 256 * line + place);
    } else {
        address[0] = 6;
        put_number(address + 1, 8, UINT64_C(0x20010db800000000) + line);
        put_number(address + 9, 8, 1 + place);
    }
}

static void put_timed_record(uint8_t *record, size_t line, enum phase phase, size_t holds, size_t children)
{
    memset(record, 0, RECORD_LENGTH);
    record[0] = (uint8_t)(1 + line);
    put_number(record + TIME_AT, 4, TIMED_LINE);
    record[PHASE_AT] = (uint8_t)phase;
    if (phase == IN_COUNTRY || phase == IN_NAME) {
        /* Abroad in 262, registered to 262/02, version 4. */
        static const uint8_t facts[9] = {2, 262 >> 8, 262 & 255, 1, 262 >> 8, 262 & 255, 0, 2, 4};

        memcpy(record + DATA_AT, facts, sizeof facts);
    } else if (phase != IDLE) {
        put_timed_address(record + DATA_AT, line, 100);
    }
    record[HOLD_COUNT_AT] = (uint8_t)holds;
    for (size_t i = 0; i < holds; i++) {
        put_timed_address(record + HOLDS_AT + i * HOLD_LENGTH, line, i);
        put_number(record + HOLDS_AT + i * HOLD_LENGTH + 17, 5, i == 0 ? 0 : 5000 + i);
    }
    record[CHILD_COUNT_AT] = (uint8_t)children;
    for (size_t i = 0; i < children; i++) {
        put_number(record + CHILDREN_AT + i * CHILD_LENGTH, 4, UINT64_C(0xc0de0000) + 4096 * line + 77 * i);
        record[CHILDREN_AT + i * CHILD_LENGTH + 4] = (uint8_t)(1 + i);
    }
}

/* The octets that the timed calls are lent. */
static const char timed_text[] = "home\t001\t01\nnode\tname\tgateway.example.org\nplmn\t262\t03\t2\nplmn\t262\t001\t1\nplmn\t310\t410\t0\n"
                                 "plmn\t262\t70\t9\nbar\t262\t02\nbar\t310\t260\n";
static uint8_t timed_packet[256], timed_parameters[24], timed_nas[100], timed_networks[12], timed_addresses[4 * SCAL_ADDRESS_LENGTH];

static void put_timed_lent(struct lent *lent, enum call call, size_t line)
{
    static const uint16_t networks[6] = {262, 2, 262, 3, 262, 70};
    static const uint8_t codes[2] = {1, 2};
    size_t length = 14;
    int is_response = call == READ_RESPONSE;

    memset(timed_nas, 0x7e, sizeof timed_nas);
    for (size_t i = 0; i < 6; i++)
        put_number(timed_networks + 2 * i, 2, networks[i]);
    for (size_t i = 0; i < 4; i++)
        put_timed_address(timed_addresses + i * SCAL_ADDRESS_LENGTH, 3, i == 1 ? 0 : 40 + 2 * (i < 2) + i);
    memset(timed_parameters, 0, sizeof timed_parameters);
    for (size_t i = 0; i < sizeof timed_parameters; i += 8)
        timed_parameters[i + 1] = 6;
    put_number(timed_packet, 14, 0);
    timed_packet[0] = codes[is_response];
    timed_packet[1] = 7;
    put_number(timed_packet + 4, 8, UINT64_C(0xfe0028af00000003));
    timed_packet[12] = 2;
    if (is_response) {
        put_number(timed_packet + length, 2, sizeof timed_parameters);
        memcpy(timed_packet + length + 2, timed_parameters, sizeof timed_parameters);
        length += 2 + sizeof timed_parameters;
    }
    put_number(timed_packet + length, 2, sizeof timed_nas);
    memcpy(timed_packet + length + 2, timed_nas, sizeof timed_nas);
    length += 2 + sizeof timed_nas;
    put_number(timed_packet + 2, 2, length);

    *lent = (struct lent){
        .table_length = SCAL_TABLE_LENGTH,
        .buffer_length = call == LIST ? SCAL_LISTING_MIN : call == START || call == COUNTRY ? SCAL_NAME_MIN : SCAL_REPLY_MIN,
        .tenant = line / 4,
        .line = line % 4,
        .time = TIMED_LINE + 1,
        .place = SCAL_PLACE_ABROAD,
        .mcc = 262,
        .registered = 1,
        .registered_mcc = 262,
        .registered_mnc = 2,
        .version = 4,
        .replied = 1,
        .good = 1,
        .number = 9000,
        .authenticated = 1,
        .timer = 0x61,
        .spi = call == CHILD_DELETED ? UINT64_C(0xc0de0000) + 4096 * line : 0x12345,
        .session = 5,
        .identifier = 7,
        .at = 8,
        .text = (const uint8_t *)timed_text,
        .text_length = sizeof timed_text - 1,
        .networks = timed_networks,
        .networks_length = sizeof timed_networks,
        .addresses = timed_addresses,
        .addresses_length = sizeof timed_addresses,
        .packet = timed_packet,
        .packet_length = length,
        .parameters = timed_parameters,
        .parameters_length = sizeof timed_parameters,
        .nas = timed_nas,
        .nas_length = sizeof timed_nas,
    };
}

/* A table of a shape in which the line of a row is in its phase. That line keeps its holds; it has children only where it is live, and
 * one fewer where one is to be made. The line that is to be opened is not there. */
static void put_timed_table(uint8_t *table, const struct shape *shape, const struct row *row, size_t line)
{
    size_t children = row->phase != LIVE ? 0 : shape->children - (row->call == CHILD_MADE && shape->children == SCAL_CHILDREN_MAX);
    uint8_t *record = table + line * RECORD_LENGTH;

    memset(table, 0, TABLE_ROOM);
    for (size_t i = 0; i < shape->lines; i++)
        put_timed_record(table + i * RECORD_LENGTH, i, LIVE, shape->holds, shape->children);
    put_timed_record(record, line, row->phase, shape->holds, children);
    if (row->phase == IN_EAP) {
        record[TURN_AT] = row->call == EAP ? 3 : 1;
        record[IDENTIFIER_AT] = 7;
    }
    if (row->call == OPEN)
        memset(record, 0, RECORD_LENGTH);
}

static double seconds_now(void)
{
    struct timespec now;

    clock_gettime(CLOCK_MONOTONIC, &now);
    return (double)now.tv_sec + 1e-9 * (double)now.tv_nsec;
}

/* Nanoseconds of one call, in a run of so many. */
static double time_calls(const struct side *side, const struct row *row, const struct lent *lent, size_t times)
{
    struct answered answered;
    double start = seconds_now();
    uint64_t refusals = repeat(side, row->call, lent, &answered, times);
    double end = seconds_now();

    if (refusals != row->refusal)
        fail("%s: returned %" PRIu64 " while it was timed", row->name, refusals);
    return 1e9 * (end - start) / (double)times;
}

/* Prepares a row on a table of a shape and sees that both sides answer alike. */
static void prepare(struct lent *lent, const struct row *row, const struct shape *shape)
{
    static uint8_t tables[2][TABLE_ROOM], record[RECORD_LENGTH], buffer[BUFFER_ROOM];
    size_t line = shape->lines / 2;

    put_timed_lent(lent, row->call, line);
    if (row->refusal == SCAL_REFUSED_PAIR)
        lent->tenant = SCAL_TENANT_MAX + 1;
    for (size_t i = 0; i < 2; i++) {
        put_timed_table(tables[i], shape, row, line);
        lent->tables[i] = tables[i];
    }
    memcpy(library_table, tables[0], sizeof library_table);
    memcpy(twin_table, tables[0], sizeof twin_table);
    memcpy(record, tables[0] + line * RECORD_LENGTH, RECORD_LENGTH);
    lent->buffer = buffer;
    lent->restored = record;
    lent->restored_at = line * RECORD_LENGTH;
    lent->restored_length = row->call == LIST || row->refusal == SCAL_REFUSED_PAIR ? 0 : RECORD_LENGTH;
    if (compare_call(row->call, lent) != row->refusal)
        fail("%s on the table '%s' is refused", row->name, shape->name);
}

static void print_row(const char *row, const char *shape, double of_library, double of_twin, int is_csv)
{
    printf(is_csv ? "%s,%s,%.1f,%.1f,%.2f\n" : "%-15s %-8s %10.1f %10.1f %8.2f\n", row, shape, of_library, of_twin, of_library / of_twin);
    fflush(stdout);
}

/* Times a row: the sides take turns, and the best of all rounds counts for each. A round lasts some 50 microseconds. */
static void time_row(const struct row *row, const struct shape *shape, const char *shape_name, uint64_t rounds, int is_csv)
{
    struct lent lent;
    double best_library, best_twin;
    size_t times;

    prepare(&lent, row, shape);
    time_calls(&library, row, &lent, 16);
    times = (size_t)(50000 / (1 + time_calls(&twin, row, &lent, 16))) + 16;
    best_library = time_calls(&library, row, &lent, times);
    best_twin = time_calls(&twin, row, &lent, times);
    for (uint64_t i = 0; i < rounds; i++) {
        double of_library, of_twin;

        if (i % 2 == 0) {
            of_library = time_calls(&library, row, &lent, times);
            of_twin = time_calls(&twin, row, &lent, times);
        } else {
            of_twin = time_calls(&twin, row, &lent, times);
            of_library = time_calls(&library, row, &lent, times);
        }
        best_library = of_library < best_library ? of_library : best_library;
        best_twin = of_twin < best_twin ? of_twin : best_twin;
    }
    print_row(row->name, shape_name, best_library, best_twin, is_csv);
}

/* Makes the call of a row once on each side, the library first, and says the row, its table and its call. */
static void make_once(const struct row *row, const struct shape *shape, const char *shape_name)
{
    struct lent lent;

    prepare(&lent, row, shape);
    printf("%s,%s,%s\n", row->name, shape_name, call_names[row->call]);
}

/* ---- The program ---- */

/* What stands behind an option. */
static const char *value_of(char **option)
{
    if (option[1] == NULL)
        fail("a value is wanted behind %s", option[0]);
    return option[1];
}

static uint64_t number_of(char **option)
{
    const char *text = value_of(option);
    char *end;
    uint64_t number = strtoull(text, &end, 10);

    if (end == text || *end != '\0')
        fail("a number is wanted behind %s in the place of '%s'", option[0], text);
    return number;
}

/* The name of the table of a row, or NULL where the row is not asked for on it. A call without a table stands once, under the first. */
static const char *table_of(const struct row *row, const struct shape *shape, const char *only, const char *table)
{
    const char *name = row->has_table ? shape->name : shape == shapes ? "-" : NULL;

    if (name == NULL || (only != NULL && strcmp(only, row->name) != 0) || (table != NULL && strcmp(table, name) != 0))
        return NULL;
    return name;
}

int main(int count, char **values)
{
    uint64_t calls = 400000, rounds = 400;
    int is_csv = 0, is_once = 0, is_found = 0;
    const char *only = NULL, *table = NULL;

    for (int i = 1; i < count; i++) {
        if (strcmp(values[i], "--csv") == 0)
            is_csv = 1;
        else if (strcmp(values[i], "--once") == 0)
            is_once = 1;
        else if (strcmp(values[i], "--calls") == 0)
            calls = number_of(values + i++);
        else if (strcmp(values[i], "--rounds") == 0)
            rounds = number_of(values + i++);
        else if (strcmp(values[i], "--only") == 0)
            only = value_of(values + i++);
        else if (strcmp(values[i], "--table") == 0)
            table = value_of(values + i++);
        else if (strcmp(values[i], "--seed") == 0)
            random_state = 2 * number_of(values + i++) + 1;
        else
            fail("usage: bench [--csv] [--once] [--calls N] [--rounds N] [--seed N] [--only ROW] [--table TABLE]");
    }
    for (size_t i = 0; i < ROWS * SHAPES; i++)
        is_found |= table_of(rows + i / SHAPES, shapes + i % SHAPES, only, table) != NULL;
    if (!is_found)
        fail("there is no such row: %s on the table %s", only == NULL ? "any" : only, table == NULL ? "any" : table);
    if (!is_once && calls > 0)
        compare(calls, is_csv ? stderr : stdout);
    if (rounds == 0)
        return EXIT_SUCCESS;
    if (is_csv) {
        puts("call,table,library_ns,twin_ns,ratio");
    } else if (!is_once) {
        for (size_t i = 0; i < SHAPES; i++)
            printf("table '%s': %s\n", shapes[i].name, shapes[i].what);
        printf("%-15s %-8s %10s %10s %8s\n", "call", "table", "library ns", "twin ns", "ratio");
    }
    for (size_t i = 0; i < ROWS * SHAPES; i++) {
        const struct row *row = rows + i / SHAPES;
        const struct shape *shape = shapes + i % SHAPES;
        const char *shape_name = table_of(row, shape, only, table);

        if (shape_name != NULL && is_once)
            make_once(row, shape, shape_name);
        else if (shape_name != NULL)
            time_row(row, shape, shape_name, rounds, is_csv);
    }
    return EXIT_SUCCESS;
}
