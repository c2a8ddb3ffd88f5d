/*
 * The life of a line, as a daemon goes through it: an attempt that ends in congestion, an attempt that leads to a live line with two
 * children, a neighbour beside it, and what the neighbour finds after the line is closed. Constants stand for DNS and the network.
 */
#include <scaltrovina.h>

#include <inttypes.h>
#include <stdio.h>
#include <stdlib.h>
#include <string.h>

/* A pair of the table, with the configuration text of its SIM. */
struct line {
    uint8_t *table;
    uint64_t tenant;
    uint64_t number;
    const char *text;
};

/* Where a line is and which PLMN it is registered to. */
struct position {
    uint64_t place;
    uint64_t mcc;
    uint64_t registered;
    uint64_t registered_mcc;
    uint64_t registered_mnc;
};

/* ---- Answers in words ---- */

/* The story goes on only where a call returns what it should. */
static void expect(uint64_t wanted, uint64_t refusal)
{
    if (refusal != wanted) {
        fflush(stdout);
        fprintf(stderr, "\nexpected '%s', got '%s'\n", scal_refusal_name(wanted), scal_refusal_name(refusal));
        exit(EXIT_FAILURE);
    }
}

static void print_octets(const uint8_t *octets, uint64_t count)
{
    printf(":");
    for (uint64_t i = 0; i < count; i++)
        printf(" %02x", (unsigned)octets[i]);
}

/* A version 4 address in dotted form, a version 6 address as 32 digits. */
static void print_address(const scal_answer *answer)
{
    if (answer->version == 4)
        printf(": %u.%u.%u.%u", (unsigned)(answer->low >> 24 & 255), (unsigned)(answer->low >> 16 & 255),
               (unsigned)(answer->low >> 8 & 255), (unsigned)(answer->low & 255));
    else
        printf(": %016" PRIx64 "%016" PRIx64, answer->high, answer->low);
}

/* What an answer has beside its action; slice is the one that holds its part, or the buffer that was written. */
static void print_details(const scal_answer *answer, const uint8_t *slice)
{
    switch (answer->action) {
    case SCAL_ACTION_STOPPED:
        printf(": %" PRIu64 ", %" PRIu64 " passed over", answer->stop, answer->passed);
        break;
    case SCAL_ACTION_ASK_COUNTRY:
    case SCAL_ACTION_ASK_NAME:
        printf(": %.*s", (int)answer->part_length, (const char *)slice + answer->part_start);
        printf("%s", answer->part_in == SCAL_PART_TEXT ? ", a part of the text" : ", built");
        break;
    case SCAL_ACTION_CHOSEN:
        print_address(answer);
        printf(", %" PRIu64 " passed over", answer->passed);
        break;
    case SCAL_ACTION_HAND_UP:
        print_octets(slice + answer->part_start, answer->part_length);
        break;
    case SCAL_ACTION_SEND_RESPONSE:
        print_octets(slice, answer->written);
        break;
    case SCAL_ACTION_RELEASED:
        if (answer->eap_ended)
            printf(", the EAP session ended");
        break;
    case SCAL_ACTION_ERROR:
        printf(": %" PRIu64 "%s", answer->error, answer->eap_ended ? ", the EAP session ended" : "");
        break;
    default:
        break;
    }
}

static void print_event(const struct line *l, uint64_t now, const char *event)
{
    printf("tenant %" PRIu64 " line %" PRIu64 " at %" PRIu64 ", %s: ", l->tenant, l->number, now, event);
}

/* Says what happened to a line and what the daemon does next. */
static void say(const struct line *l, uint64_t now, const char *event, uint64_t refusal, const scal_answer *answer, const uint8_t *slice)
{
    print_event(l, now, event);
    expect(SCAL_ACCEPTED, refusal);
    printf("%s", scal_action_name(answer->action));
    print_details(answer, slice);
    printf("\n");
}

/* ---- One call each ---- */

static void open_line(const struct line *l)
{
    printf("tenant %" PRIu64 " opens line %" PRIu64 "\n", l->tenant, l->number);
    expect(SCAL_ACCEPTED, scal_open(l->table, SCAL_TABLE_LENGTH, l->tenant, l->number));
}

static void close_line(const struct line *l)
{
    printf("tenant %" PRIu64 " closes line %" PRIu64 "\n", l->tenant, l->number);
    expect(SCAL_ACCEPTED, scal_close(l->table, SCAL_TABLE_LENGTH, l->tenant, l->number));
}

static void list(const uint8_t *table, uint64_t tenant)
{
    uint8_t listing[SCAL_LISTING_MIN];
    scal_answer answer;

    expect(SCAL_ACCEPTED, scal_list(table, SCAL_TABLE_LENGTH, tenant, listing, sizeof listing, &answer));
    printf("listing of tenant %" PRIu64 ", %" PRIu64 " octets\n", tenant, answer.written);
    fwrite(listing, 1, (size_t)answer.written, stdout);
}

/* The slice in which a name to ask lies. */
static const uint8_t *name_slice(const struct line *l, const uint8_t *name, const scal_answer *answer)
{
    return answer->part_in == SCAL_PART_TEXT ? (const uint8_t *)l->text : name;
}

static void start(const struct line *l, uint64_t now, struct position at)
{
    uint8_t name[SCAL_NAME_MIN];
    scal_answer answer;
    uint64_t refusal = scal_start(l->table, SCAL_TABLE_LENGTH, l->tenant, l->number, now, at.place, at.mcc, at.registered,
                                  at.registered_mcc, at.registered_mnc, 4, (const uint8_t *)l->text, strlen(l->text), name, sizeof name,
                                  &answer);

    say(l, now, "start", refusal, &answer, name_slice(l, name, &answer));
}

/* DNS lists the networks 999/01 and 999/70. */
static void country_answer(const struct line *l, uint64_t now)
{
    static const uint8_t networks[2][SCAL_NETWORK_LENGTH] = {{999 / 256, 999 % 256, 0, 1}, {999 / 256, 999 % 256, 0, 70}};
    uint8_t name[SCAL_NAME_MIN];
    scal_answer answer;
    uint64_t refusal = scal_country(l->table, SCAL_TABLE_LENGTH, l->tenant, l->number, now, 1, networks[0], sizeof networks,
                                    (const uint8_t *)l->text, strlen(l->text), name, sizeof name, &answer);

    say(l, now, "country answer", refusal, &answer, name_slice(l, name, &answer));
}

/* DNS lists the addresses 2001:db8::7, 192.0.2.5 and 192.0.2.7. */
static void address_answer(const struct line *l, uint64_t now)
{
    static const uint8_t addresses[3][SCAL_ADDRESS_LENGTH] = {
        {6, 0x20, 0x01, 0x0d, 0xb8, [16] = 7},
        {4, 192, 0, 2, 5},
        {4, 192, 0, 2, 7},
    };
    scal_answer answer;
    uint64_t refusal = scal_address(l->table, SCAL_TABLE_LENGTH, l->tenant, l->number, now, addresses[0], sizeof addresses, &answer);

    say(l, now, "address answer", refusal, &answer, NULL);
}

static void begin(const struct line *l, uint64_t now)
{
    scal_answer answer;
    uint64_t refusal = scal_begin(l->table, SCAL_TABLE_LENGTH, l->tenant, l->number, now, &answer);

    say(l, now, "begin", refusal, &answer, NULL);
}

static void init_answer(const struct line *l, uint64_t now)
{
    scal_answer answer;
    uint64_t refusal = scal_init(l->table, SCAL_TABLE_LENGTH, l->tenant, l->number, now, &answer);

    say(l, now, "init answer", refusal, &answer, NULL);
}

static void eap(const struct line *l, uint64_t now, const char *event, const uint8_t *packet, size_t length)
{
    scal_answer answer;
    uint64_t refusal = scal_eap(l->table, SCAL_TABLE_LENGTH, l->tenant, l->number, now, packet, length, &answer);

    say(l, now, event, refusal, &answer, packet);
}

static void reply(const struct line *l, uint64_t now, const uint8_t *parameters, size_t parameters_length, const uint8_t *nas,
                  size_t nas_length)
{
    uint8_t response[SCAL_REPLY_MIN];
    scal_answer answer;
    uint64_t refusal = scal_reply(l->table, SCAL_TABLE_LENGTH, l->tenant, l->number, now, parameters, parameters_length, nas, nas_length,
                                  response, sizeof response, &answer);

    say(l, now, "reply", refusal, &answer, response);
}

static void final_answer(const struct line *l, uint64_t now)
{
    scal_answer answer;
    uint64_t refusal = scal_final(l->table, SCAL_TABLE_LENGTH, l->tenant, l->number, now, 1, &answer);

    say(l, now, "final answer", refusal, &answer, NULL);
}

static void congestion(const struct line *l, uint64_t now, uint64_t octet)
{
    scal_timer_fields timer;
    scal_answer answer;
    uint64_t refusal = scal_congestion(l->table, SCAL_TABLE_LENGTH, l->tenant, l->number, now, 1, octet, &answer);

    say(l, now, "congestion", refusal, &answer, NULL);
    expect(SCAL_ACCEPTED, scal_timer(octet, &timer));
    if (timer.kind == SCAL_TIMER_SECONDS)
        printf("the address is held until %" PRIu64 "\n", now + timer.seconds);
}

static void child_made(const struct line *l, uint64_t now, uint64_t spi, uint64_t session)
{
    scal_answer answer;
    uint64_t refusal = scal_child_made(l->table, SCAL_TABLE_LENGTH, l->tenant, l->number, now, spi, session, &answer);

    say(l, now, "child made", refusal, &answer, NULL);
}

/* A call on a pair that is not open is refused, and nothing else happens. */
static void give_up_closed(const struct line *l, uint64_t now)
{
    scal_answer answer;
    uint64_t refusal = scal_give_up(l->table, SCAL_TABLE_LENGTH, l->tenant, l->number, now, &answer);

    expect(SCAL_REFUSED_NOT_OPEN, refusal);
    print_event(l, now, "give up");
    printf("refused, %s\n", scal_refusal_name(refusal));
}

/* ---- The story ---- */

/* IKE and EAP from the chosen address to the first reply, one step a second. */
static void first_reply(const struct line *l, uint64_t now)
{
    /* request, identifier 7, 14 octets, expanded type, 3GPP, EAP-5G, Start, spare */
    static const uint8_t packet[] = {0x01, 0x07, 0x00, 0x0e, 0xfe, 0x00, 0x28, 0xaf, 0x00, 0x00, 0x00, 0x03, 0x01, 0x00};
    /* one AN-parameter: type 2, length 3, its three octets */
    static const uint8_t parameters[] = {0x02, 0x03, 0x99, 0xf9, 0x07};
    static const uint8_t nas[] = {0x7e, 0x00, 0x41};

    begin(l, now);
    init_answer(l, now + 1);
    eap(l, now + 2, "EAP Start", packet, sizeof packet);
    reply(l, now + 3, parameters, sizeof parameters, nas, sizeof nas);
}

/* The NAS exchange behind the first reply, up to EAP Success, one step a second. */
static void second_reply(const struct line *l, uint64_t now)
{
    /* request, identifier 8, 19 octets, expanded type, 3GPP, EAP-5G, NAS, spare, 3 octets of NAS */
    static const uint8_t packet[] = {0x01, 0x08, 0x00, 0x13, 0xfe, 0x00, 0x28, 0xaf, 0x00, 0x00,
                                     0x00, 0x03, 0x02, 0x00, 0x00, 0x03, 0x7e, 0x00, 0x56};
    /* Success, identifier 8, 4 octets */
    static const uint8_t success[] = {0x03, 0x08, 0x00, 0x04};
    /* no AN-parameters: a slice of length 0 has a pointer too */
    static const uint8_t none[1] = {0};
    static const uint8_t nas[] = {0x7e, 0x00, 0x57};

    eap(l, now, "EAP NAS", packet, sizeof packet);
    reply(l, now + 1, none, 0, nas, sizeof nas);
    eap(l, now + 2, "EAP Success", success, sizeof success);
}

static void congested_attempt(const struct line *l)
{
    printf("\nAn attempt ends in congestion.\n");
    start(l, 100, (struct position){.place = SCAL_PLACE_ABROAD, .mcc = 999});
    country_answer(l, 101);
    address_answer(l, 102);
    first_reply(l, 103);
    congestion(l, 107, 0x81);
}

static void neighbour_attempt(const struct line *l)
{
    printf("\nThe neighbour has a clock of its own, and the address is not held for it.\n");
    start(l, 50, (struct position){.place = SCAL_PLACE_HOME});
    address_answer(l, 51);
}

static void live_attempt(const struct line *l)
{
    printf("\nThe next attempt passes the held address over, and the line becomes live.\n");
    start(l, 110, (struct position){.place = SCAL_PLACE_ABROAD, .mcc = 999, .registered = 1, .registered_mcc = 999, .registered_mnc = 70});
    address_answer(l, 111);
    first_reply(l, 112);
    second_reply(l, 116);
    final_answer(l, 119);
    child_made(l, 120, 0xc0de, 5);
    child_made(l, 121, 0xbeef, 6);
}

int main(void)
{
    uint8_t table[SCAL_TABLE_LENGTH] = {0};
    const struct line line = {table, 0, 0, "home\t001\t01\nplmn\t999\t70\t10\nbar\t999\t01\n"};
    const struct line neighbour = {table, 1, 0, "home\t001\t01\nnode\tname\tgateway.example.net\n"};
    const struct line newcomer = {table, 1, 2, neighbour.text};

    if (scal_table_length() != sizeof table) {
        fprintf(stderr, "the header and the library are of different versions\n");
        return EXIT_FAILURE;
    }
    open_line(&line);
    open_line(&neighbour);
    congested_attempt(&line);
    neighbour_attempt(&neighbour);
    live_attempt(&line);
    list(table, line.tenant);

    printf("\nThe line is closed, and the neighbour opens another: it is idle and has nothing in it.\n");
    close_line(&line);
    give_up_closed(&line, 122);
    list(table, line.tenant);
    open_line(&newcomer);
    list(table, newcomer.tenant);
    return EXIT_SUCCESS;
}
