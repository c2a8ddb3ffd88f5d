/*
 * Calls the library by the names of the header's fields and enumerations, and compares each number that comes back with what document 01
 * and docs/INTERFACE.md say. The first difference is said, and the status is then 1.
 */
#include <scaltrovina.h>

#include <inttypes.h>
#include <stdio.h>
#include <stdlib.h>

#define SLICE(octets) octets, sizeof octets
#define TEXT(text) text, sizeof text - 1

/* The line that events happen to, and their time. */
#define LINE SLICE(table), 1, 2, 100

/* An accepted call gives these fields and zeros in the others; a refused call returns the number of this name. */
#define GIVES(got, call, ...) compare(#call, SCAL_ACCEPTED, call, &got, &(scal_##got){__VA_ARGS__}, sizeof got / sizeof(uint64_t))
#define EVENT(name, call, ...) GIVES(answer, call, .action = SCAL_ACTION_##name, __VA_ARGS__)
#define PACKET(name, call, ...) GIVES(packet_fields, call, .kind = SCAL_PACKET_##name, __VA_ARGS__)
#define REFUSED(name, call) compare(#call, SCAL_REFUSED_##name, call, NULL, NULL, 0)
#define NO_PART .part_in = SCAL_PART_NONE

static uint8_t table[SCAL_TABLE_LENGTH], buffer[SCAL_REPLY_MIN];
static scal_answer answer;
static scal_packet_fields packet_fields;
static scal_parameter_fields parameter_fields;
static scal_timer_fields timer_fields;

static const uint8_t barring[] = "home\t001\t01\nbar\t999\t70\n", naming[] = "home\t001\t01\nnode\tname\tgw.example\n";
static const uint8_t network[SCAL_NETWORK_LENGTH] = {999 / 256, 999 % 256, 0, 70};
static uint8_t addresses[2 * SCAL_ADDRESS_LENGTH] = {4, 192, 0, 2, 7, [17] = 6, 0x20, 0x01, 0x0d, 0xb8, [25] = 1, [33] = 9};
static const uint8_t first[] = {1, 7, 0, 14, 254, 0, 40, 175, 0, 0, 0, 3, 1, 0}, success[] = {3, 7, 0, 4};
static const uint8_t second[] = {1, 8, 0, 19, 254, 0, 40, 175, 0, 0, 0, 3, 2, 0, 0, 3, 0x7e, 0, 0x56};
static const uint8_t parameters[] = {9, 3, 1, 1, 1, 4, 0}, nas[] = {0x7e, 0, 0x41, 1};

static void compare(const char *call, uint64_t refusal, uint64_t returned, const void *got, const void *wanted, size_t count)
{
    const uint64_t *here = got, *there = wanted;
    size_t i = 0;

    if (returned != refusal) {
        fprintf(stderr, "%s: returned %" PRIu64 ", expected %" PRIu64 "\n", call, returned, refusal);
        exit(EXIT_FAILURE);
    }
    while (i < count && here[i] == there[i])
        i++;
    if (i < count) {
        fprintf(stderr, "%s: number %zu is %" PRIu64 ", expected %" PRIu64 "\n", call, i, here[i], there[i]);
        exit(EXIT_FAILURE);
    }
}

static uint64_t start(uint64_t place, uint64_t mcc, const uint8_t *text, size_t length)
{
    return scal_start(LINE, place, mcc, 0, 0, 0, 6, text, length, SLICE(buffer), &answer);
}

static void meet_stops(void)
{
    EVENT(STOPPED, start(SCAL_PLACE_UNKNOWN, 0, TEXT(barring)), .stop = SCAL_STOP_PLACE);
    EVENT(ASK_COUNTRY, start(SCAL_PLACE_ABROAD, 999, TEXT(barring)), .part_in = SCAL_PART_NAME, .part_length = 52, .written = 52);
    EVENT(STOPPED, scal_country(LINE, 0, network, 0, TEXT(barring), SLICE(buffer), &answer), .stop = SCAL_STOP_NO_REPLY);
    start(SCAL_PLACE_ABROAD, 999, TEXT(barring));
    EVENT(STOPPED, scal_country(LINE, 1, SLICE(network), TEXT(barring), SLICE(buffer), &answer), .stop = SCAL_STOP_BARRED);
    EVENT(ASK_NAME, start(SCAL_PLACE_HOME, 0, TEXT(barring)), .part_in = SCAL_PART_NAME, .part_length = 43, .written = 43);
    EVENT(STOPPED, scal_address(LINE, addresses, SCAL_ADDRESS_LENGTH, &answer), .stop = SCAL_STOP_ADDRESS, .passed = 1);
}

/* From idle to phase eap, where the first reply is sent. */
static void reach_eap(void)
{
    const uint64_t high = UINT64_C(0x20010db800000001), low = addresses[33];

    EVENT(ASK_NAME, start(SCAL_PLACE_HOME, 0, TEXT(naming)), .part_in = SCAL_PART_TEXT, .part_start = 22, .part_length = 10);
    EVENT(CHOSEN, scal_address(LINE, SLICE(addresses), &answer), .passed = 1, .version = 6, .high = high, .low = low);
    EVENT(SEND_INIT, scal_begin(LINE, &answer), NO_PART);
    EVENT(SEND_AUTH_REQUEST, scal_init(LINE, &answer), NO_PART);
    EVENT(ASK_NAS, scal_eap(LINE, SLICE(first), &answer), NO_PART);
    EVENT(SEND_RESPONSE, scal_reply(LINE, SLICE(parameters), SLICE(nas), SLICE(buffer), &answer), .written = 29);
}

static void meet_live_line(void)
{
    reach_eap();
    EVENT(SEND_AUTH, scal_eap(LINE, SLICE(success), &answer), NO_PART);
    EVENT(LIVE, scal_final(LINE, 1, &answer), NO_PART);
    for (uint64_t i = 0; i < 8; i++)
        EVENT(NONE, scal_child_made(LINE, SCAL_SPI_MAX - i, 1, &answer), NO_PART);
    REFUSED(RANGE, scal_child_made(LINE, SCAL_SPI_MAX + 1, 1, &answer));
    REFUSED(SPI, scal_child_made(LINE, SCAL_SPI_MAX, 1, &answer));
    REFUSED(CHILDREN, scal_child_made(LINE, SCAL_SPI_MIN, 1, &answer));
    EVENT(RELEASED, scal_ike_delete(LINE, &answer), NO_PART);
}

static void meet_early_ends(void)
{
    reach_eap();
    EVENT(HAND_UP, scal_eap(LINE, SLICE(second), &answer), .part_in = SCAL_PART_PACKET, .part_start = 16, .part_length = 3);
    EVENT(ERROR, scal_error(LINE, 24, &answer), .eap_ended = 1, .error = 24);
    for (int i = 0; i < 8; i++, addresses[33]++) {
        reach_eap();
        EVENT(RELEASED, scal_congestion(LINE, 1, 0xe0, &answer), .eap_ended = 1);
    }
    REFUSED(HOLDS, start(SCAL_PLACE_HOME, 0, TEXT(naming)));
    REFUSED(PHASE, scal_begin(LINE, &answer));
    REFUSED(MALFORMED, scal_eap(LINE, SLICE(nas), &answer));
    REFUSED(EARLY, scal_begin(SLICE(table), 1, 2, 99, &answer));
}

static void meet_pairs(void)
{
    REFUSED(TABLE, scal_open(table, sizeof table - 1, 1, 2));
    REFUSED(PAIR, scal_open(SLICE(table), 16, 0));
    REFUSED(BUFFER, scal_list(SLICE(table), 1, buffer, 1023, &answer));
    EVENT(NONE, scal_list(SLICE(table), 1, buffer, 1024, &answer), .written = 16);
    REFUSED(OPEN, scal_open(SLICE(table), 1, 2));
    REFUSED(NOT_OPEN, scal_close(SLICE(table), 1, 3));
    for (uint64_t i = 0; i < 32; i++)
        scal_open(SLICE(table), i / 4, i % 4);
    REFUSED(FULL, scal_open(SLICE(table), 15, 3));
}

static void meet_fields(void)
{
    PACKET(START, scal_read_request(SLICE(first), &packet_fields), .identifier = 7);
    PACKET(NAS, scal_read_request(SLICE(second), &packet_fields), .identifier = 8, .nas_start = 16, .nas_length = 3);
    PACKET(SUCCESS, scal_read_request(SLICE(success), &packet_fields), .identifier = 7);
    PACKET(NAS, scal_write_response(6, SLICE(parameters), SLICE(nas), SLICE(buffer), &packet_fields),
           .identifier = 6, .parameters_start = 16, .parameters_length = 7, .nas_start = 25, .nas_length = 4);
    PACKET(NAS, scal_read_response(buffer, 29, &packet_fields),
           .identifier = 6, .parameters_start = 16, .parameters_length = 7, .nas_start = 25, .nas_length = 4);
    GIVES(parameter_fields, scal_parameter(SLICE(parameters), 0, &parameter_fields),
          .found = 1, .type = 9, .value_start = 2, .value_length = 3, .next = 5);
    GIVES(parameter_fields, scal_parameter(SLICE(parameters), parameter_fields.next, &parameter_fields),
          .found = 1, .type = 4, .value_start = 7, .next = 7);
    GIVES(parameter_fields, scal_parameter(SLICE(parameters), parameter_fields.next, &parameter_fields), .found = 0);
    GIVES(timer_fields, scal_timer(0x00, &timer_fields), .kind = SCAL_TIMER_NONE);
    GIVES(timer_fields, scal_timer(0x61, &timer_fields), .kind = SCAL_TIMER_SECONDS, .seconds = 2);
    GIVES(timer_fields, scal_timer(0xe0, &timer_fields), .kind = SCAL_TIMER_DEACTIVATED);
}

int main(void)
{
    scal_open(SLICE(table), 1, 2);
    meet_stops();
    meet_live_line();
    meet_early_ends();
    meet_pairs();
    meet_fields();
    return EXIT_SUCCESS;
}
