/*
 * twin.c: the calls of scaltrovina.h by hand in C, to compare the library with. The table is that of docs/TABLE.md; texts, packets and
 * lists are those of docs/TEXTS.md. A record is tested and changed where it lies: no call builds a copy of one, and none keeps anything.
 */
#include "twin.h"

#include <string.h>

/* Where the parts of a record stand, and their lengths. */
enum {
    TIME_AT = 1,
    PHASE_AT = 5,
    DATA_AT = 6,
    DATA_LENGTH = 19,
    TURN_AT = 23,
    IDENTIFIER_AT = 24,
    HOLD_COUNT_AT = 25,
    CHILD_COUNT_AT = 26,
    HOLDS_AT = 27,
    HOLD_LENGTH = 22,
    CHILDREN_AT = 203,
    CHILD_LENGTH = 5,
    RECORD_LENGTH = 243
};

/* The place facts, which stand in the data of the phases country and name. */
enum {
    PLACE_AT = DATA_AT,
    MCC_AT = 7,
    REGISTERED_AT = 9,
    REGISTERED_MCC_AT = 10,
    REGISTERED_MNC_AT = 12,
    VERSION_AT = 14
};

enum { PAIRS = 64, BUSY_HOLDS = 7, NO_RECORD = 255 };

enum { IDLE, COUNTRY, NAME, CHOSEN, INIT, AUTH, EAP, SURE, LIVE };

/* How far an EAP session is: an identifier is owed with the first reply to come, owed, or answered. */
enum { FIRST = 1, OWED = 2, ANSWERED = 3 };

/* ---- Octets ---- */

/* Eight octets in the machine's own order, for tests of zero and of sameness only. */
static inline uint64_t word_at(const uint8_t *octets)
{
    uint64_t word;

    memcpy(&word, octets, sizeof word);
    return word;
}

/* Big-endian numbers, in a form that compilers turn into one load. */
static inline uint32_t number16_at(const uint8_t *octets)
{
    return (uint32_t)octets[0] << 8 | octets[1];
}

static inline uint32_t number32_at(const uint8_t *octets)
{
    return (uint32_t)octets[0] << 24 | (uint32_t)octets[1] << 16 | (uint32_t)octets[2] << 8 | octets[3];
}

static inline uint64_t number64_at(const uint8_t *octets)
{
    return (uint64_t)octets[0] << 56 | (uint64_t)octets[1] << 48 | (uint64_t)octets[2] << 40 | (uint64_t)octets[3] << 32
        | (uint64_t)octets[4] << 24 | (uint64_t)octets[5] << 16 | (uint64_t)octets[6] << 8 | octets[7];
}

static inline void put_number16(uint8_t *octets, uint64_t number)
{
    octets[0] = (uint8_t)(number >> 8);
    octets[1] = (uint8_t)number;
}

static inline void put_number32(uint8_t *octets, uint64_t number)
{
    octets[0] = (uint8_t)(number >> 24);
    octets[1] = (uint8_t)(number >> 16);
    octets[2] = (uint8_t)(number >> 8);
    octets[3] = (uint8_t)number;
}

/* Not 0 exactly where one of the octets is not 0. Up to seven octets are the last ones of a word that ends with them, so that the eight
 * octets before the run's end must be there. */
static inline uint64_t any_octet(const uint8_t *octets, size_t length)
{
    uint64_t any = 0;

    if (length < 8)
        return number64_at(octets + length - 8) & ((UINT64_C(1) << 8 * length) - 1);
    for (size_t i = 0; i < length / 8; i++)
        any |= word_at(octets + 8 * i);
    return any | word_at(octets + length - 8);
}

/* ---- Soundness ---- */

/* Each of these is 0 exactly where what it looks at is sound; those of a table are put together by | and tested once. */

/* An address: version 6, or version 4 and zeros behind its four octets. */
static inline uint64_t address_faults(const uint8_t *address)
{
    uint64_t behind = word_at(address + 5) | word_at(address + 9);

    return address[0] == 4 ? behind : (uint64_t)(address[0] ^ 6);
}

/* The place facts with their zeros: in phase country the place is abroad, and what is not there is zero. */
static uint64_t facts_faults(const uint8_t *record)
{
    uint32_t place = record[PLACE_AT], mcc = number16_at(record + MCC_AT);
    uint32_t registered = record[REGISTERED_AT], version = record[VERSION_AT];
    uint32_t registered_mcc = number16_at(record + REGISTERED_MCC_AT), registered_mnc = number16_at(record + REGISTERED_MNC_AT);
    uint32_t most_mcc = place == 1 ? 0 : SCAL_CODE_MAX, most_registered = registered == 0 ? 0 : SCAL_CODE_MAX;
    uint32_t least_place = record[PHASE_AT] == COUNTRY ? 2 : 1;

    return (place < least_place) | (place > 2) | (mcc > most_mcc) | (registered > 1) | (registered_mcc > most_registered)
        | (registered_mnc > most_registered) | ((version != 4) & (version != 6)) | word_at(record + 15) | word_at(record + 17);
}

/* A phase with its data and the zeros that it leaves of its octets. */
static inline uint64_t phase_faults(const uint8_t *record)
{
    uint32_t phase = record[PHASE_AT];

    if (phase >= CHOSEN && phase <= LIVE) {
        uint64_t faults = address_faults(record + DATA_AT);

        if (phase == EAP)
            return faults | (record[TURN_AT] - 1u > 2u);
        return faults | record[TURN_AT] | record[IDENTIFIER_AT];
    }
    if (phase == IDLE)
        return word_at(record + 6) | word_at(record + 14) | word_at(record + 17);
    return phase > LIVE || facts_faults(record);
}

/* Whether two of up to eight words are the same: each case compares one word with those before it. */
static inline int has_twice(const uint64_t *w, size_t count)
{
    switch (count) {
    case 8: if (w[7] == w[0] || w[7] == w[1] || w[7] == w[2] || w[7] == w[3] || w[7] == w[4] || w[7] == w[5] || w[7] == w[6]) return 1;
        /* fall through */
    case 7: if (w[6] == w[0] || w[6] == w[1] || w[6] == w[2] || w[6] == w[3] || w[6] == w[4] || w[6] == w[5]) return 1;
        /* fall through */
    case 6: if (w[5] == w[0] || w[5] == w[1] || w[5] == w[2] || w[5] == w[3] || w[5] == w[4]) return 1;
        /* fall through */
    case 5: if (w[4] == w[0] || w[4] == w[1] || w[4] == w[2] || w[4] == w[3]) return 1;
        /* fall through */
    case 4: if (w[3] == w[0] || w[3] == w[1] || w[3] == w[2]) return 1;
        /* fall through */
    case 3: if (w[2] == w[0] || w[2] == w[1]) return 1;
        /* fall through */
    case 2: return w[1] == w[0];
    default: return 0;
    }
}

static inline int same_address(const uint8_t *a, const uint8_t *b)
{
    return ((word_at(a + 1) ^ word_at(b + 1)) | (word_at(a + 9) ^ word_at(b + 9)) | (uint64_t)(a[0] ^ b[0])) == 0;
}

/* Whether the first holds of a line have an address twice or the chosen one. */
static int has_address_twice(const uint8_t *record, size_t count)
{
    for (size_t i = 0; i < count; i++) {
        const uint8_t *hold = record + HOLDS_AT + i * HOLD_LENGTH;

        if (record[PHASE_AT] >= CHOSEN && same_address(record + DATA_AT, hold))
            return 1;
        for (size_t j = 0; j < i; j++)
            if (same_address(record + HOLDS_AT + j * HOLD_LENGTH, hold))
                return 1;
    }
    return 0;
}

/* A word of an address: where two differ the addresses do; where they are the same the octets have to be compared. */
static inline uint64_t address_word(const uint8_t *address)
{
    return word_at(address + 1) ^ word_at(address + 9);
}

/* The time at which a hold is free, 0 where it has no end. */
static inline uint64_t hold_end(const uint8_t *hold)
{
    return number64_at(hold + 14) & UINT64_C(0xffffffffff);
}

/* The holds: each with an address and an end after the line's time, no address twice and none the chosen one, zeros behind the last. At
 * most eight addresses are compared, since a line that has chosen one has at most seven holds. */
static inline uint64_t holds_faults(const uint8_t *record, size_t count)
{
    uint64_t words[SCAL_HOLDS_MAX], time = number32_at(record + TIME_AT), faults = 0;
    const uint8_t *hold = record + HOLDS_AT;
    size_t known = 0;

    /* Most lines have no hold, and the zeros are then of one length. */
    if (count == 0)
        return any_octet(hold, CHILDREN_AT - HOLDS_AT);
    for (; known < count; hold += HOLD_LENGTH) {
        faults |= address_faults(hold);
        faults |= hold_end(hold) - 1 < time;
        words[known++] = address_word(hold);
    }
    for (; hold != record + CHILDREN_AT; hold += HOLD_LENGTH)
        faults |= word_at(hold) | word_at(hold + 8) | word_at(hold + 14);
    if (record[PHASE_AT] >= CHOSEN)
        words[known++] = address_word(record + DATA_AT);
    return faults | (uint64_t)(has_twice(words, known) && has_address_twice(record, count));
}

/* The children: SPI and session of each in their ranges, no SPI twice, zeros behind the last. */
static inline uint64_t children_faults(const uint8_t *record, size_t count)
{
    const uint8_t *child = record + CHILDREN_AT;
    uint64_t spis[SCAL_CHILDREN_MAX], faults = 0;

    for (size_t i = 0; i < count; i++, child += CHILD_LENGTH) {
        spis[i] = number32_at(child);
        faults |= (spis[i] < SCAL_SPI_MIN) | (child[4] - 1u > SCAL_SESSION_MAX - 1u);
    }
    /* Most lines have at most one child, and the zeros behind its place are then of one length. */
    if (count == 0)
        return number64_at(child) >> 24 | any_octet(child + CHILD_LENGTH, RECORD_LENGTH - CHILDREN_AT - CHILD_LENGTH);
    if (count == 1)
        return faults | any_octet(child, RECORD_LENGTH - CHILDREN_AT - CHILD_LENGTH);
    return faults | (uint64_t)has_twice(spis, count) | any_octet(child, (size_t)(record + RECORD_LENGTH - child));
}

/* A record of an open pair, its pair apart. */
static inline uint64_t line_faults(const uint8_t *record)
{
    uint32_t phase = record[PHASE_AT];
    size_t holds = record[HOLD_COUNT_AT], children = record[CHILD_COUNT_AT];

    if (holds > (phase == IDLE ? SCAL_HOLDS_MAX : BUSY_HOLDS) || children > (phase == LIVE ? SCAL_CHILDREN_MAX : 0))
        return 1;
    return phase_faults(record) | holds_faults(record, holds) | children_faults(record, children);
}

/* Whether a table is sound, and then which record each pair has: that of the number 0 is the first free one, NO_RECORD says none. */
static int is_sound(const uint8_t *table, size_t length, uint8_t record_of[PAIRS + 1])
{
    uint64_t seen = 0, faults = 0;

    if (length != SCAL_TABLE_LENGTH)
        return 0;
    memset(record_of, NO_RECORD, PAIRS + 1);
    /* The last record comes first, so that of the free ones the first stays. */
    for (size_t i = SCAL_RECORDS; i-- > 0;) {
        const uint8_t *record = table + i * RECORD_LENGTH;
        uint32_t pair = record[0];

        if (pair > PAIRS)
            return 0;
        record_of[pair] = (uint8_t)i;
        if (pair == 0) {
            faults |= any_octet(record, RECORD_LENGTH);
        } else {
            uint64_t bit = UINT64_C(1) << (pair - 1);

            faults |= (seen & bit) | line_faults(record);
            seen |= bit;
        }
    }
    return faults == 0;
}

/* ---- What the calls share ---- */

static inline size_t pair_of(uint64_t tenant, uint64_t line)
{
    return (size_t)(1 + 4 * tenant + line);
}

/* The first tests of a call on a pair: the table, the pair, the answer buffer. */
static inline uint64_t checked(const uint8_t *table, size_t table_length, uint64_t tenant, uint64_t line, int is_short,
                               uint8_t record_of[PAIRS + 1])
{
    if (!is_sound(table, table_length, record_of))
        return SCAL_REFUSED_TABLE;
    if (tenant > SCAL_TENANT_MAX || line > SCAL_LINE_MAX)
        return SCAL_REFUSED_PAIR;
    return is_short ? SCAL_REFUSED_BUFFER : SCAL_ACCEPTED;
}

/* The first tests of a timed call, its time's among them, and the record that it is about. */
static uint64_t enter(uint8_t *table, size_t table_length, uint64_t tenant, uint64_t line, uint64_t time, int is_short, uint8_t **record)
{
    uint8_t record_of[PAIRS + 1];
    uint64_t refusal = checked(table, table_length, tenant, line, is_short, record_of);

    if (refusal != SCAL_ACCEPTED)
        return refusal;
    if (record_of[pair_of(tenant, line)] == NO_RECORD)
        return SCAL_REFUSED_NOT_OPEN;
    *record = table + record_of[pair_of(tenant, line)] * (size_t)RECORD_LENGTH;
    if (time < number32_at(*record + TIME_AT))
        return SCAL_REFUSED_EARLY;
    return time > SCAL_TIME_MAX ? SCAL_REFUSED_RANGE : SCAL_ACCEPTED;
}

static inline int is_in_force(const uint8_t *hold, uint64_t time)
{
    return hold_end(hold) - 1 >= time;
}

static size_t holds_in_force(const uint8_t *record, uint64_t time)
{
    size_t count = 0;

    for (size_t i = 0; i < record[HOLD_COUNT_AT]; i++)
        count += (size_t)is_in_force(record + HOLDS_AT + i * HOLD_LENGTH, time);
    return count;
}

/* What every accepted timed call does: the line has its time, and its ended holds are dropped. */
static void keep_time(uint8_t *record, uint64_t time)
{
    uint8_t *holds = record + HOLDS_AT;
    size_t count = record[HOLD_COUNT_AT], kept = 0;

    put_number32(record + TIME_AT, time);
    for (size_t i = 0; i < count; i++) {
        if (!is_in_force(holds + i * HOLD_LENGTH, time))
            continue;
        if (kept != i)
            memcpy(holds + kept * HOLD_LENGTH, holds + i * HOLD_LENGTH, HOLD_LENGTH);
        kept++;
    }
    if (kept != count) {
        memset(holds + kept * HOLD_LENGTH, 0, (count - kept) * HOLD_LENGTH);
        record[HOLD_COUNT_AT] = (uint8_t)kept;
    }
}

static void make_idle(uint8_t *record)
{
    memset(record + PHASE_AT, 0, 1 + DATA_LENGTH);
}

static inline int is_address_held(const uint8_t *record, const uint8_t *address)
{
    for (size_t i = 0; i < record[HOLD_COUNT_AT]; i++)
        if (same_address(record + HOLDS_AT + i * HOLD_LENGTH, address))
            return 1;
    return 0;
}

/* The line's address is chosen; the data of the phase before go. */
static void choose(uint8_t *record, const uint8_t *address, scal_answer *answer)
{
    int is_version4 = address[0] == 4;

    record[PHASE_AT] = CHOSEN;
    memcpy(record + DATA_AT, address, SCAL_ADDRESS_LENGTH);
    memset(record + TURN_AT, 0, 2);
    answer->action = SCAL_ACTION_CHOSEN;
    answer->version = address[0];
    answer->high = is_version4 ? 0 : number64_at(address + 1);
    answer->low = is_version4 ? number32_at(address + 1) : number64_at(address + 9);
}

static void stop(uint8_t *record, uint64_t number, scal_answer *answer)
{
    make_idle(record);
    answer->action = SCAL_ACTION_STOPPED;
    answer->stop = number;
}

/* Goes through a list of sound addresses: the first of the local version that is not on hold is chosen. */
static void choose_first(uint8_t *record, uint64_t version, const uint8_t *addresses, size_t count, scal_answer *answer)
{
    size_t passed = 0;

    while (passed < count) {
        const uint8_t *address = addresses + passed * SCAL_ADDRESS_LENGTH;

        if (address[0] == version && !is_address_held(record, address)) {
            choose(record, address, answer);
            break;
        }
        passed++;
    }
    if (passed == count)
        stop(record, SCAL_STOP_ADDRESS, answer);
    answer->passed = passed;
}

/* ---- The configuration text ---- */

enum { NETWORKS_MAX = 16, NODE_NAME_MAX = 253, NO_NETWORK = 1000000 };

enum { NODE_NONE, NODE_NAME, NODE_ADDRESS };

/* A PLMN is one number, 1000 * MCC + MNC. The node's name is a part of the text, its address has the octets of a list's entry. */
struct config {
    uint32_t home;
    uint32_t node;
    size_t name_start;
    size_t name_length;
    uint8_t address[SCAL_ADDRESS_LENGTH];
    size_t preferred_count;
    size_t barred_count;
    uint32_t preferred[NETWORKS_MAX];
    uint32_t priorities[NETWORKS_MAX];
    uint32_t barred[NETWORKS_MAX];
};

static inline uint32_t digit_at(const uint8_t *text)
{
    return (uint32_t)*text - '0';
}

/* Reads an MCC, a tab and an MNC; says where it ended, or null where there is none. */
static const uint8_t *read_network(const uint8_t *at, const uint8_t *end, uint32_t *network)
{
    uint32_t mcc, mnc;

    if (end - at < 6 || at[3] != '\t' || digit_at(at) > 9 || digit_at(at + 1) > 9 || digit_at(at + 2) > 9 || digit_at(at + 4) > 9
        || digit_at(at + 5) > 9)
        return NULL;
    mcc = 100 * digit_at(at) + 10 * digit_at(at + 1) + digit_at(at + 2);
    mnc = 10 * digit_at(at + 4) + digit_at(at + 5);
    at += 6;
    if (at != end && digit_at(at) <= 9)
        mnc = 10 * mnc + digit_at(at++);
    *network = 1000 * mcc + mnc;
    return at;
}

/* Reads a priority, 0 to 255 without leading zeros; says where it ended, or null where there is none. */
static const uint8_t *read_priority(const uint8_t *at, const uint8_t *end, uint32_t *priority)
{
    const uint8_t *start = at;
    uint32_t number = 0;

    while (at != end && at - start < 4 && digit_at(at) <= 9)
        number = 10 * number + digit_at(at++);
    if (at == start || number > 255 || (*start == '0' && at - start > 1))
        return NULL;
    *priority = number;
    return at;
}

static inline const uint8_t *read_octet(const uint8_t *at, const uint8_t *end, uint8_t octet)
{
    return at != NULL && at != end && *at == octet ? at + 1 : NULL;
}

/* What stands behind a word, or null where another word stands there. */
static inline const uint8_t *behind_word(const uint8_t *at, const uint8_t *end, const char *word, size_t length)
{
    return (size_t)(end - at) >= length && memcmp(at, word, length) == 0 ? at + length : NULL;
}

static inline int is_name_octet(uint8_t octet)
{
    return (octet | 32u) - 'a' < 26u || digit_at(&octet) <= 9 || octet == '-' || octet == '.';
}

/* Reads the digits of an address of so many octets; says where it ended, or null. */
static const uint8_t *read_hexadecimal(const uint8_t *at, const uint8_t *end, uint8_t *octets, size_t count)
{
    if ((size_t)(end - at) < 2 * count)
        return NULL;
    for (size_t i = 0; i < 2 * count; i++) {
        uint32_t digit = digit_at(at + i);

        if (digit > 9) {
            digit = (uint32_t)at[i] - 'a';
            if (digit > 5)
                return NULL;
            digit += 10;
        }
        octets[i / 2] = (uint8_t)((uint32_t)octets[i / 2] << 4 | digit);
    }
    return at + 2 * count;
}

/* Reads what stands behind the word of a node; says where it ended, or null. */
static const uint8_t *read_node(const uint8_t *text, const uint8_t *at, const uint8_t *end, struct config *config)
{
    const uint8_t *value;

    if ((value = behind_word(at, end, "name\t", 5)) != NULL) {
        size_t length = 0;

        while (value + length != end && is_name_octet(value[length]))
            length++;
        if (length < 1 || length > NODE_NAME_MAX)
            return NULL;
        config->node = NODE_NAME;
        config->name_start = (size_t)(value - text);
        config->name_length = length;
        return value + length;
    }
    config->node = NODE_ADDRESS;
    memset(config->address, 0, sizeof config->address);
    if ((value = behind_word(at, end, "v4\t", 3)) != NULL) {
        config->address[0] = 4;
        return read_hexadecimal(value, end, config->address + 1, 4);
    }
    if ((value = behind_word(at, end, "v6\t", 3)) != NULL) {
        config->address[0] = 6;
        return read_hexadecimal(value, end, config->address + 1, 16);
    }
    return NULL;
}

/* The place of a PLMN among the first ones of a list, or their count where it is not there. */
static inline size_t place_among(const uint32_t *networks, size_t count, uint32_t network)
{
    size_t i = 0;

    while (i < count && networks[i] != network)
        i++;
    return i;
}

/* Reads a configuration text; 0 where it is not well formed. */
static int read_config(const uint8_t *text, size_t length, struct config *config)
{
    const uint8_t *at = text, *end = text + length, *value;
    uint32_t network;

    config->node = NODE_NONE;
    config->preferred_count = 0;
    config->barred_count = 0;
    if ((at = behind_word(at, end, "home\t", 5)) == NULL || (at = read_network(at, end, &config->home)) == NULL
        || (at = read_octet(at, end, '\n')) == NULL)
        return 0;
    if ((value = behind_word(at, end, "node\t", 5)) != NULL && (at = read_octet(read_node(text, value, end, config), end, '\n')) == NULL)
        return 0;
    while ((value = behind_word(at, end, "plmn\t", 5)) != NULL) {
        size_t count = config->preferred_count;

        if ((at = read_network(value, end, &network)) == NULL || (at = read_octet(at, end, '\t')) == NULL || count == NETWORKS_MAX
            || (at = read_priority(at, end, config->priorities + count)) == NULL || (at = read_octet(at, end, '\n')) == NULL
            || place_among(config->preferred, count, network) != count)
            return 0;
        config->preferred[count] = network;
        config->preferred_count = count + 1;
    }
    while ((value = behind_word(at, end, "bar\t", 4)) != NULL) {
        size_t count = config->barred_count;

        if ((at = read_network(value, end, &network)) == NULL || (at = read_octet(at, end, '\n')) == NULL || count == NETWORKS_MAX
            || place_among(config->barred, count, network) != count)
            return 0;
        config->barred[count] = network;
        config->barred_count = count + 1;
    }
    return at == end;
}

static inline int is_barred(const struct config *config, uint32_t network)
{
    return place_among(config->barred, config->barred_count, network) != config->barred_count;
}

/* ---- Names ---- */

static void put_code(uint8_t *at, uint32_t code)
{
    at[0] = (uint8_t)('0' + code / 100);
    at[1] = (uint8_t)('0' + code / 10 % 10);
    at[2] = (uint8_t)('0' + code % 10);
}

/* The answer asks for a name that was built in the name buffer. */
static void ask_built(uint64_t action, size_t length, scal_answer *answer)
{
    answer->action = action;
    answer->part_in = SCAL_PART_NAME;
    answer->part_length = length;
    answer->written = length;
}

static void ask_operator(uint8_t *record, uint32_t network, uint8_t *name, scal_answer *answer)
{
    static const char form[] = "n3iwf.5gc.mnc000.mcc000.pub.3gppnetwork.org";

    memcpy(name, form, sizeof form - 1);
    put_code(name + 13, network % 1000);
    put_code(name + 20, network / 1000);
    record[PHASE_AT] = NAME;
    ask_built(SCAL_ACTION_ASK_NAME, sizeof form - 1, answer);
}

static void ask_country(uint8_t *record, uint32_t mcc, uint8_t *name, scal_answer *answer)
{
    static const char form[] = "n3iwf.5gc.mcc000.visited-country.pub.3gppnetwork.org";

    memcpy(name, form, sizeof form - 1);
    put_code(name + 13, mcc);
    record[PHASE_AT] = COUNTRY;
    ask_built(SCAL_ACTION_ASK_COUNTRY, sizeof form - 1, answer);
}

/* Step S2: the node's address, the node's name, or the operator name of the home PLMN. */
static void ask_home(uint8_t *record, const struct config *config, uint64_t version, uint8_t *name, scal_answer *answer)
{
    if (config->node == NODE_ADDRESS) {
        choose_first(record, version, config->address, 1, answer);
    } else if (config->node == NODE_NAME) {
        record[PHASE_AT] = NAME;
        answer->action = SCAL_ACTION_ASK_NAME;
        answer->part_in = SCAL_PART_TEXT;
        answer->part_start = config->name_start;
        answer->part_length = config->name_length;
    } else {
        ask_operator(record, config->home, name, answer);
    }
}

/* The registered PLMN of the place facts, or NO_NETWORK where there is none or it is the text's home PLMN. */
static uint32_t registered_network(const uint8_t *record, const struct config *config)
{
    uint32_t network = 1000 * number16_at(record + REGISTERED_MCC_AT) + number16_at(record + REGISTERED_MNC_AT);

    return record[REGISTERED_AT] == 0 || network == config->home ? NO_NETWORK : network;
}

static inline uint32_t listed_network(const uint8_t *networks, size_t i)
{
    return 1000 * number16_at(networks + 4 * i) + number16_at(networks + 4 * i + 2);
}

static int is_listed(const uint8_t *networks, size_t count, uint32_t network)
{
    for (size_t i = 0; i < count; i++)
        if (listed_network(networks, i) == network)
            return 1;
    return 0;
}

/* Step S4 with a reply: the PLMN to ask for, or NO_NETWORK. Where none is listed, those of the visited MCC stand in for the list. */
static uint32_t pick_network(const uint8_t *record, const struct config *config, const uint8_t *networks, size_t count)
{
    uint32_t registered = registered_network(record, config), mcc = number16_at(record + MCC_AT);
    size_t best = config->preferred_count;

    if (registered != NO_NETWORK && is_listed(networks, count, registered) && !is_barred(config, registered))
        return registered;
    for (size_t i = 0; i < config->preferred_count; i++) {
        uint32_t network = config->preferred[i];

        if ((best == config->preferred_count || config->priorities[i] < config->priorities[best])
            && (count == 0 ? network / 1000 == mcc : is_listed(networks, count, network)) && !is_barred(config, network))
            best = i;
    }
    if (best != config->preferred_count)
        return config->preferred[best];
    for (size_t i = 0; i < count; i++)
        if (!is_barred(config, listed_network(networks, i)))
            return listed_network(networks, i);
    return NO_NETWORK;
}

/* ---- Packets ---- */

/* The first octets of every packet but Success; the eight from the fifth on are type, vendor and vendor type. */
static int is_expanded(const uint8_t *packet, size_t length, uint8_t code, uint8_t message)
{
    return length >= 14 && packet[0] == code && number16_at(packet + 2) == length && packet[12] == message
        && number64_at(packet + 4) == UINT64_C(0xfe0028af00000003);
}

/* Reads a NAS length and NAS at a place; 0 where they are not whole. */
static int read_nas(const uint8_t *packet, size_t length, size_t at, scal_packet_fields *fields)
{
    size_t nas_length;

    if (length - at < 2)
        return 0;
    nas_length = number16_at(packet + at);
    if (nas_length < 1 || nas_length > SCAL_NAS_MAX || length - at - 2 < nas_length)
        return 0;
    fields->nas_start = at + 2;
    fields->nas_length = nas_length;
    return 1;
}

static int are_parameters(const uint8_t *parameters, size_t length)
{
    size_t at = 0;

    while (length - at >= 2 && length - at - 2 >= parameters[at + 1])
        at += 2 + (size_t)parameters[at + 1];
    return at == length;
}

/* Reads Start, a NAS request or Success into cleared fields; 0 where it is another packet. */
static int read_request(const uint8_t *packet, size_t length, scal_packet_fields *fields)
{
    uint64_t kind = 0;

    if (is_expanded(packet, length, 1, 1))
        kind = SCAL_PACKET_START;
    else if (is_expanded(packet, length, 1, 2) && read_nas(packet, length, 14, fields))
        kind = SCAL_PACKET_NAS;
    else if (length == 4 && packet[0] == 3 && number16_at(packet + 2) == 4)
        kind = SCAL_PACKET_SUCCESS;
    else
        return 0;
    fields->kind = kind;
    fields->identifier = packet[1];
    return 1;
}

/* What is lent for a response: 8, 9 or accepted. */
static uint64_t lent_refusal(const uint8_t *parameters, size_t parameters_length, size_t nas_length)
{
    if (parameters_length > SCAL_PARAMETERS_MAX || nas_length < 1 || nas_length > SCAL_NAS_MAX)
        return SCAL_REFUSED_RANGE;
    return are_parameters(parameters, parameters_length) ? SCAL_ACCEPTED : SCAL_REFUSED_MALFORMED;
}

/* Writes a response and zeros behind it; says how many octets it has. */
static size_t put_response(uint8_t identifier, const uint8_t *parameters, size_t parameters_length, const uint8_t *nas,
                           size_t nas_length, uint8_t *packet, size_t packet_length)
{
    static const uint8_t form[14] = {2, 0, 0, 0, 254, 0x00, 0x28, 0xaf, 0, 0, 0, 3, 2, 0};
    size_t length = 18 + parameters_length + nas_length;

    memcpy(packet, form, sizeof form);
    packet[1] = identifier;
    put_number16(packet + 2, length);
    put_number16(packet + 14, parameters_length);
    memcpy(packet + 16, parameters, parameters_length);
    put_number16(packet + 16 + parameters_length, nas_length);
    memcpy(packet + 18 + parameters_length, nas, nas_length);
    memset(packet + length, 0, packet_length - length);
    return length;
}

/* The seconds of each unit of a timer octet; the unit 7 is deactivated. */
static const uint32_t unit_seconds[7] = {600, 3600, 36000, 2, 30, 60, 1152000};

static void read_timer(uint64_t octet, uint64_t *kind, uint64_t *seconds)
{
    uint64_t unit = octet >> 5, count = octet & 31;

    *kind = unit == 7 ? SCAL_TIMER_DEACTIVATED : count == 0 ? SCAL_TIMER_NONE : SCAL_TIMER_SECONDS;
    *seconds = unit == 7 ? 0 : count * unit_seconds[unit];
}

/* ---- Open, close, listing ---- */

uint64_t twin_table_length(void)
{
    return SCAL_TABLE_LENGTH;
}

uint64_t twin_open(uint8_t *table, size_t table_length, uint64_t tenant, uint64_t line)
{
    uint8_t record_of[PAIRS + 1];
    uint64_t refusal = checked(table, table_length, tenant, line, 0, record_of);

    if (refusal != SCAL_ACCEPTED)
        return refusal;
    if (record_of[pair_of(tenant, line)] != NO_RECORD)
        return SCAL_REFUSED_OPEN;
    if (record_of[0] == NO_RECORD)
        return SCAL_REFUSED_FULL;
    table[record_of[0] * (size_t)RECORD_LENGTH] = (uint8_t)pair_of(tenant, line);
    return SCAL_ACCEPTED;
}

uint64_t twin_close(uint8_t *table, size_t table_length, uint64_t tenant, uint64_t line)
{
    uint8_t record_of[PAIRS + 1];
    uint64_t refusal = checked(table, table_length, tenant, line, 0, record_of);

    if (refusal != SCAL_ACCEPTED)
        return refusal;
    if (record_of[pair_of(tenant, line)] == NO_RECORD)
        return SCAL_REFUSED_NOT_OPEN;
    memset(table + record_of[pair_of(tenant, line)] * (size_t)RECORD_LENGTH, 0, RECORD_LENGTH);
    return SCAL_ACCEPTED;
}

static uint8_t *put_word(uint8_t *at, const char *word)
{
    size_t length = strlen(word);

    memcpy(at, word, length);
    return at + length;
}

static uint8_t *put_hexadecimal(uint8_t *at, const uint8_t *octets, size_t count)
{
    static const char digits[] = "0123456789abcdef";

    for (size_t i = 0; i < count; i++) {
        *at++ = (uint8_t)digits[octets[i] >> 4];
        *at++ = (uint8_t)digits[octets[i] & 15];
    }
    return at;
}

/* A number below 20 in decimal. */
static uint8_t *put_small(uint8_t *at, uint32_t number)
{
    if (number > 9)
        *at++ = '1';
    *at++ = (uint8_t)('0' + number % 10);
    return at;
}

static uint8_t *put_line(uint8_t *at, const uint8_t *record, uint32_t line)
{
    static const char words[9][10] = {
        "\tidle\t", "\tcountry\t", "\tname\t", "\tchosen\t", "\tinit\t", "\tauth\t", "\teap\t", "\tsure\t", "\tlive\t"
    };

    at = put_word(at, "line\t");
    at = put_small(at, line);
    at = put_word(at, words[record[PHASE_AT]]);
    if (record[PHASE_AT] >= CHOSEN)
        at = put_hexadecimal(at, record + DATA_AT + 1, record[DATA_AT] == 4 ? 4 : 16);
    else
        *at++ = '-';
    *at++ = '\t';
    at = put_small(at, record[CHILD_COUNT_AT]);
    *at++ = '\n';
    for (size_t i = 0; i < record[CHILD_COUNT_AT]; i++) {
        const uint8_t *child = record + CHILDREN_AT + i * CHILD_LENGTH;

        at = put_word(at, "child\t");
        at = put_small(at, line);
        *at++ = '\t';
        at = put_hexadecimal(at, child, 4);
        *at++ = '\t';
        at = put_small(at, child[4]);
        *at++ = '\n';
    }
    return at;
}

uint64_t twin_list(const uint8_t *table, size_t table_length, uint64_t tenant, uint8_t *listing, size_t listing_length,
                   scal_answer *answer)
{
    uint8_t record_of[PAIRS + 1], *at = listing;
    uint64_t refusal = checked(table, table_length, tenant, 0, listing_length < SCAL_LISTING_MIN, record_of);

    memset(answer, 0, sizeof *answer);
    if (refusal == SCAL_ACCEPTED) {
        for (uint32_t line = 0; line <= SCAL_LINE_MAX; line++)
            if (record_of[pair_of(tenant, line)] != NO_RECORD)
                at = put_line(at, table + record_of[pair_of(tenant, line)] * (size_t)RECORD_LENGTH, line);
        answer->written = (uint64_t)(at - listing);
    }
    memset(at, 0, listing_length - (size_t)(at - listing));
    return refusal;
}

/* ---- Choosing a gateway ---- */

static int are_start_numbers(uint64_t place, uint64_t mcc, uint64_t registered, uint64_t registered_mcc, uint64_t registered_mnc,
                             uint64_t version)
{
    uint64_t most_mcc = place == SCAL_PLACE_ABROAD ? SCAL_CODE_MAX : 0, most_registered = registered == 1 ? SCAL_CODE_MAX : 0;

    return place <= SCAL_PLACE_ABROAD && mcc <= most_mcc && registered <= 1 && registered_mcc <= most_registered
        && registered_mnc <= most_registered && (version == 4 || version == 6);
}

uint64_t twin_start(uint8_t *table, size_t table_length, uint64_t tenant, uint64_t line, uint64_t time, uint64_t place, uint64_t mcc,
                    uint64_t registered, uint64_t registered_mcc, uint64_t registered_mnc, uint64_t version, const uint8_t *text,
                    size_t text_length, uint8_t *name, size_t name_length, scal_answer *answer)
{
    struct config config;
    uint32_t network;
    uint8_t *record;
    uint64_t refusal = enter(table, table_length, tenant, line, time, name_length < SCAL_NAME_MIN, &record);

    memset(name, 0, name_length);
    memset(answer, 0, sizeof *answer);
    if (refusal != SCAL_ACCEPTED)
        return refusal;
    if (text_length > SCAL_TEXT_MAX || !are_start_numbers(place, mcc, registered, registered_mcc, registered_mnc, version))
        return SCAL_REFUSED_RANGE;
    if (!read_config(text, text_length, &config))
        return SCAL_REFUSED_MALFORMED;
    if (place == SCAL_PLACE_ABROAD && mcc == config.home / 1000)
        return SCAL_REFUSED_RANGE;
    if (record[PHASE_AT] != IDLE)
        return SCAL_REFUSED_PHASE;
    if (holds_in_force(record, time) == SCAL_HOLDS_MAX)
        return SCAL_REFUSED_HOLDS;

    keep_time(record, time);
    if (place == SCAL_PLACE_UNKNOWN) {
        stop(record, SCAL_STOP_PLACE, answer);
        return SCAL_ACCEPTED;
    }
    record[PLACE_AT] = (uint8_t)place;
    put_number16(record + MCC_AT, mcc);
    record[REGISTERED_AT] = (uint8_t)registered;
    put_number16(record + REGISTERED_MCC_AT, registered_mcc);
    put_number16(record + REGISTERED_MNC_AT, registered_mnc);
    record[VERSION_AT] = (uint8_t)version;
    network = registered_network(record, &config);
    if (place == SCAL_PLACE_HOME)
        ask_home(record, &config, version, name, answer);
    else if (network != NO_NETWORK && !is_barred(&config, network)
             && place_among(config.preferred, config.preferred_count, network) != config.preferred_count)
        ask_operator(record, network, name, answer);
    else
        ask_country(record, (uint32_t)mcc, name, answer);
    return SCAL_ACCEPTED;
}

static int are_networks(const uint8_t *networks, size_t length)
{
    if (length % SCAL_NETWORK_LENGTH != 0 || length > SCAL_ENTRIES_MAX * SCAL_NETWORK_LENGTH)
        return 0;
    for (size_t i = 0; i < length; i += 2)
        if (number16_at(networks + i) > SCAL_CODE_MAX)
            return 0;
    return 1;
}

uint64_t twin_country(uint8_t *table, size_t table_length, uint64_t tenant, uint64_t line, uint64_t time, uint64_t replied,
                      const uint8_t *networks, size_t networks_length, const uint8_t *text, size_t text_length, uint8_t *name,
                      size_t name_length, scal_answer *answer)
{
    struct config config;
    size_t count = networks_length / SCAL_NETWORK_LENGTH;
    uint32_t network;
    uint8_t *record;
    uint64_t refusal = enter(table, table_length, tenant, line, time, name_length < SCAL_NAME_MIN, &record);

    memset(name, 0, name_length);
    memset(answer, 0, sizeof *answer);
    if (refusal != SCAL_ACCEPTED)
        return refusal;
    if (replied > 1 || (replied == 0 && networks_length != 0) || !are_networks(networks, networks_length) || text_length > SCAL_TEXT_MAX)
        return SCAL_REFUSED_RANGE;
    if (!read_config(text, text_length, &config))
        return SCAL_REFUSED_MALFORMED;
    if (record[PHASE_AT] != COUNTRY)
        return SCAL_REFUSED_PHASE;
    if (number16_at(record + MCC_AT) == config.home / 1000)
        return SCAL_REFUSED_RANGE;

    keep_time(record, time);
    if (replied == 0) {
        stop(record, SCAL_STOP_NO_REPLY, answer);
        return SCAL_ACCEPTED;
    }
    network = pick_network(record, &config, networks, count);
    if (network != NO_NETWORK)
        ask_operator(record, network, name, answer);
    else if (count == 0)
        ask_home(record, &config, record[VERSION_AT], name, answer);
    else
        stop(record, SCAL_STOP_BARRED, answer);
    return SCAL_ACCEPTED;
}

static int are_addresses(const uint8_t *addresses, size_t length)
{
    if (length % SCAL_ADDRESS_LENGTH != 0 || length > SCAL_ENTRIES_MAX * SCAL_ADDRESS_LENGTH)
        return 0;
    for (size_t i = 0; i < length; i += SCAL_ADDRESS_LENGTH)
        if (address_faults(addresses + i) != 0)
            return 0;
    return 1;
}

uint64_t twin_address(uint8_t *table, size_t table_length, uint64_t tenant, uint64_t line, uint64_t time, const uint8_t *addresses,
                      size_t addresses_length, scal_answer *answer)
{
    uint8_t *record;
    uint64_t refusal = enter(table, table_length, tenant, line, time, 0, &record);

    memset(answer, 0, sizeof *answer);
    if (refusal != SCAL_ACCEPTED)
        return refusal;
    if (!are_addresses(addresses, addresses_length))
        return SCAL_REFUSED_RANGE;
    if (record[PHASE_AT] != NAME)
        return SCAL_REFUSED_PHASE;
    keep_time(record, time);
    choose_first(record, record[VERSION_AT], addresses, addresses_length / SCAL_ADDRESS_LENGTH, answer);
    return SCAL_ACCEPTED;
}

/* ---- IKE and EAP ---- */

/* A call that leads from one phase to the next and keeps the chosen address. */
static inline uint64_t advance(uint8_t *table, size_t table_length, uint64_t tenant, uint64_t line, uint64_t time, uint8_t from,
                               uint8_t to, uint64_t action, scal_answer *answer)
{
    uint8_t *record;
    uint64_t refusal = enter(table, table_length, tenant, line, time, 0, &record);

    memset(answer, 0, sizeof *answer);
    if (refusal != SCAL_ACCEPTED)
        return refusal;
    if (record[PHASE_AT] != from)
        return SCAL_REFUSED_PHASE;
    keep_time(record, time);
    record[PHASE_AT] = to;
    answer->action = action;
    return SCAL_ACCEPTED;
}

uint64_t twin_begin(uint8_t *table, size_t table_length, uint64_t tenant, uint64_t line, uint64_t time, scal_answer *answer)
{
    return advance(table, table_length, tenant, line, time, CHOSEN, INIT, SCAL_ACTION_SEND_INIT, answer);
}

uint64_t twin_init(uint8_t *table, size_t table_length, uint64_t tenant, uint64_t line, uint64_t time, scal_answer *answer)
{
    return advance(table, table_length, tenant, line, time, INIT, AUTH, SCAL_ACTION_SEND_AUTH_REQUEST, answer);
}

uint64_t twin_eap(uint8_t *table, size_t table_length, uint64_t tenant, uint64_t line, uint64_t time, const uint8_t *packet,
                  size_t packet_length, scal_answer *answer)
{
    scal_packet_fields fields = {0};
    uint8_t *record;
    int is_answered;
    uint64_t refusal = enter(table, table_length, tenant, line, time, 0, &record);

    memset(answer, 0, sizeof *answer);
    if (refusal != SCAL_ACCEPTED)
        return refusal;
    if (!read_request(packet, packet_length, &fields))
        return SCAL_REFUSED_MALFORMED;
    is_answered = record[PHASE_AT] == EAP && record[TURN_AT] == ANSWERED;
    if (fields.kind == SCAL_PACKET_START ? record[PHASE_AT] != AUTH
                                         : !is_answered || (fields.kind == SCAL_PACKET_SUCCESS && packet[1] != record[IDENTIFIER_AT]))
        return SCAL_REFUSED_PHASE;
    keep_time(record, time);
    if (fields.kind == SCAL_PACKET_SUCCESS) {
        record[PHASE_AT] = SURE;
        record[TURN_AT] = 0;
        record[IDENTIFIER_AT] = 0;
        answer->action = SCAL_ACTION_SEND_AUTH;
        return SCAL_ACCEPTED;
    }
    record[PHASE_AT] = EAP;
    record[TURN_AT] = fields.kind == SCAL_PACKET_START ? FIRST : OWED;
    record[IDENTIFIER_AT] = packet[1];
    if (fields.kind == SCAL_PACKET_START) {
        answer->action = SCAL_ACTION_ASK_NAS;
    } else {
        answer->action = SCAL_ACTION_HAND_UP;
        answer->part_in = SCAL_PART_PACKET;
        answer->part_start = fields.nas_start;
        answer->part_length = fields.nas_length;
    }
    return SCAL_ACCEPTED;
}

/* The tests of a reply behind those of every timed call. */
static uint64_t reply_refusal(const uint8_t *record, const uint8_t *parameters, size_t parameters_length, size_t nas_length)
{
    int is_owed = record[PHASE_AT] == EAP && record[TURN_AT] != ANSWERED;
    uint64_t refusal = lent_refusal(parameters, parameters_length, nas_length);

    if (refusal != SCAL_ACCEPTED)
        return refusal;
    if (is_owed && record[TURN_AT] == FIRST && parameters_length == 0)
        return SCAL_REFUSED_RANGE;
    return is_owed ? SCAL_ACCEPTED : SCAL_REFUSED_PHASE;
}

uint64_t twin_reply(uint8_t *table, size_t table_length, uint64_t tenant, uint64_t line, uint64_t time, const uint8_t *parameters,
                    size_t parameters_length, const uint8_t *nas, size_t nas_length, uint8_t *reply, size_t reply_length,
                    scal_answer *answer)
{
    uint8_t *record;
    uint64_t refusal = enter(table, table_length, tenant, line, time, reply_length < SCAL_REPLY_MIN, &record);

    memset(answer, 0, sizeof *answer);
    if (refusal == SCAL_ACCEPTED)
        refusal = reply_refusal(record, parameters, parameters_length, nas_length);
    if (refusal != SCAL_ACCEPTED) {
        memset(reply, 0, reply_length);
        return refusal;
    }
    keep_time(record, time);
    record[TURN_AT] = ANSWERED;
    answer->action = SCAL_ACTION_SEND_RESPONSE;
    answer->written = put_response(record[IDENTIFIER_AT], parameters, parameters_length, nas, nas_length, reply, reply_length);
    return SCAL_ACCEPTED;
}

uint64_t twin_final(uint8_t *table, size_t table_length, uint64_t tenant, uint64_t line, uint64_t time, uint64_t good,
                    scal_answer *answer)
{
    uint8_t *record;
    uint64_t refusal = enter(table, table_length, tenant, line, time, 0, &record);

    memset(answer, 0, sizeof *answer);
    if (refusal != SCAL_ACCEPTED)
        return refusal;
    if (good > 1)
        return SCAL_REFUSED_RANGE;
    if (record[PHASE_AT] != SURE)
        return SCAL_REFUSED_PHASE;
    keep_time(record, time);
    if (good == 1)
        record[PHASE_AT] = LIVE;
    else
        make_idle(record);
    answer->action = good == 1 ? SCAL_ACTION_LIVE : SCAL_ACTION_RELEASED;
    return SCAL_ACCEPTED;
}

/* ---- How an attempt ends early ---- */

uint64_t twin_error(uint8_t *table, size_t table_length, uint64_t tenant, uint64_t line, uint64_t time, uint64_t number,
                    scal_answer *answer)
{
    uint8_t *record;
    uint64_t refusal = enter(table, table_length, tenant, line, time, 0, &record);

    memset(answer, 0, sizeof *answer);
    if (refusal != SCAL_ACCEPTED)
        return refusal;
    if (number < 1 || number > SCAL_ERROR_MAX)
        return SCAL_REFUSED_RANGE;
    if (record[PHASE_AT] < AUTH || record[PHASE_AT] > SURE)
        return SCAL_REFUSED_PHASE;
    keep_time(record, time);
    answer->action = SCAL_ACTION_ERROR;
    answer->error = number;
    answer->eap_ended = record[PHASE_AT] == EAP;
    make_idle(record);
    return SCAL_ACCEPTED;
}

uint64_t twin_congestion(uint8_t *table, size_t table_length, uint64_t tenant, uint64_t line, uint64_t time, uint64_t authenticated,
                         uint64_t timer, scal_answer *answer)
{
    uint64_t kind, seconds;
    uint8_t *record;
    uint64_t refusal = enter(table, table_length, tenant, line, time, 0, &record);

    memset(answer, 0, sizeof *answer);
    if (refusal != SCAL_ACCEPTED)
        return refusal;
    if (authenticated > 1 || timer > 255)
        return SCAL_REFUSED_RANGE;
    if (authenticated == 0 || record[PHASE_AT] < AUTH || record[PHASE_AT] > SURE)
        return SCAL_REFUSED_PHASE;
    keep_time(record, time);
    answer->action = SCAL_ACTION_RELEASED;
    answer->eap_ended = record[PHASE_AT] == EAP;
    read_timer(timer, &kind, &seconds);
    /* A line that is not idle has at most seven holds, so that there is room for one more. */
    if (kind != SCAL_TIMER_NONE) {
        uint8_t *hold = record + HOLDS_AT + record[HOLD_COUNT_AT]++ * (size_t)HOLD_LENGTH;
        uint64_t end = kind == SCAL_TIMER_SECONDS ? time + seconds : 0;

        memcpy(hold, record + DATA_AT, SCAL_ADDRESS_LENGTH);
        hold[17] = (uint8_t)(end >> 32);
        put_number32(hold + 18, end);
    }
    make_idle(record);
    return SCAL_ACCEPTED;
}

uint64_t twin_give_up(uint8_t *table, size_t table_length, uint64_t tenant, uint64_t line, uint64_t time, scal_answer *answer)
{
    uint8_t *record;
    uint64_t refusal = enter(table, table_length, tenant, line, time, 0, &record);

    memset(answer, 0, sizeof *answer);
    if (refusal != SCAL_ACCEPTED)
        return refusal;
    if (record[PHASE_AT] == IDLE || record[PHASE_AT] == LIVE)
        return SCAL_REFUSED_PHASE;
    keep_time(record, time);
    make_idle(record);
    return SCAL_ACCEPTED;
}

/* ---- A live line ---- */

/* The place of an SPI among the children of a line, or their count where it is not there. */
static size_t child_place(const uint8_t *record, uint64_t spi)
{
    size_t i = 0;

    while (i < record[CHILD_COUNT_AT] && number32_at(record + CHILDREN_AT + i * CHILD_LENGTH) != spi)
        i++;
    return i;
}

uint64_t twin_child_made(uint8_t *table, size_t table_length, uint64_t tenant, uint64_t line, uint64_t time, uint64_t spi,
                         uint64_t session, scal_answer *answer)
{
    uint8_t *record, *child;
    uint64_t refusal = enter(table, table_length, tenant, line, time, 0, &record);

    memset(answer, 0, sizeof *answer);
    if (refusal != SCAL_ACCEPTED)
        return refusal;
    if (spi < SCAL_SPI_MIN || spi > UINT32_MAX || session < 1 || session > SCAL_SESSION_MAX)
        return SCAL_REFUSED_RANGE;
    if (record[PHASE_AT] != LIVE)
        return SCAL_REFUSED_PHASE;
    if (child_place(record, spi) != record[CHILD_COUNT_AT])
        return SCAL_REFUSED_SPI;
    if (record[CHILD_COUNT_AT] == SCAL_CHILDREN_MAX)
        return SCAL_REFUSED_CHILDREN;
    keep_time(record, time);
    child = record + CHILDREN_AT + record[CHILD_COUNT_AT]++ * (size_t)CHILD_LENGTH;
    put_number32(child, spi);
    child[4] = (uint8_t)session;
    return SCAL_ACCEPTED;
}

uint64_t twin_child_deleted(uint8_t *table, size_t table_length, uint64_t tenant, uint64_t line, uint64_t time, uint64_t spi,
                            scal_answer *answer)
{
    size_t place, count;
    uint8_t *record, *child;
    uint64_t refusal = enter(table, table_length, tenant, line, time, 0, &record);

    memset(answer, 0, sizeof *answer);
    if (refusal != SCAL_ACCEPTED)
        return refusal;
    count = record[CHILD_COUNT_AT];
    place = child_place(record, spi);
    if (record[PHASE_AT] != LIVE || place == count)
        return SCAL_REFUSED_PHASE;
    keep_time(record, time);
    child = record + CHILDREN_AT + place * CHILD_LENGTH;
    memmove(child, child + CHILD_LENGTH, (count - 1 - place) * CHILD_LENGTH);
    memset(record + CHILDREN_AT + (count - 1) * CHILD_LENGTH, 0, CHILD_LENGTH);
    record[CHILD_COUNT_AT] = (uint8_t)(count - 1);
    return SCAL_ACCEPTED;
}

uint64_t twin_ike_delete(uint8_t *table, size_t table_length, uint64_t tenant, uint64_t line, uint64_t time, scal_answer *answer)
{
    uint8_t *record;
    uint64_t refusal = enter(table, table_length, tenant, line, time, 0, &record);

    memset(answer, 0, sizeof *answer);
    if (refusal != SCAL_ACCEPTED)
        return refusal;
    if (record[PHASE_AT] != LIVE)
        return SCAL_REFUSED_PHASE;
    keep_time(record, time);
    make_idle(record);
    record[CHILD_COUNT_AT] = 0;
    memset(record + CHILDREN_AT, 0, SCAL_CHILDREN_MAX * CHILD_LENGTH);
    answer->action = SCAL_ACTION_RELEASED;
    return SCAL_ACCEPTED;
}

/* ---- Packets, parameters and timers without a table ---- */

uint64_t twin_read_request(const uint8_t *packet, size_t packet_length, scal_packet_fields *fields)
{
    memset(fields, 0, sizeof *fields);
    return read_request(packet, packet_length, fields) ? SCAL_ACCEPTED : SCAL_REFUSED_MALFORMED;
}

uint64_t twin_read_response(const uint8_t *packet, size_t packet_length, scal_packet_fields *fields)
{
    size_t length;

    memset(fields, 0, sizeof *fields);
    if (!is_expanded(packet, packet_length, 2, 2) || packet_length < 16)
        return SCAL_REFUSED_MALFORMED;
    length = number16_at(packet + 14);
    if (length > SCAL_PARAMETERS_MAX || packet_length - 16 < length || !are_parameters(packet + 16, length)
        || !read_nas(packet, packet_length, 16 + length, fields))
        return SCAL_REFUSED_MALFORMED;
    fields->kind = SCAL_PACKET_NAS;
    fields->identifier = packet[1];
    fields->parameters_start = 16;
    fields->parameters_length = length;
    return SCAL_ACCEPTED;
}

uint64_t twin_write_response(uint64_t identifier, const uint8_t *parameters, size_t parameters_length, const uint8_t *nas,
                             size_t nas_length, uint8_t *packet, size_t packet_length, scal_packet_fields *fields)
{
    uint64_t refusal = packet_length < SCAL_REPLY_MIN ? SCAL_REFUSED_BUFFER
        : identifier > 255                            ? SCAL_REFUSED_RANGE
                                                      : lent_refusal(parameters, parameters_length, nas_length);

    memset(fields, 0, sizeof *fields);
    if (refusal != SCAL_ACCEPTED) {
        memset(packet, 0, packet_length);
        return refusal;
    }
    put_response((uint8_t)identifier, parameters, parameters_length, nas, nas_length, packet, packet_length);
    fields->kind = SCAL_PACKET_NAS;
    fields->identifier = identifier;
    fields->parameters_start = 16;
    fields->parameters_length = parameters_length;
    fields->nas_start = 18 + parameters_length;
    fields->nas_length = nas_length;
    return SCAL_ACCEPTED;
}

uint64_t twin_parameter(const uint8_t *parameters, size_t parameters_length, uint64_t at, scal_parameter_fields *fields)
{
    memset(fields, 0, sizeof *fields);
    if (parameters_length > SCAL_PARAMETERS_MAX || at > parameters_length)
        return SCAL_REFUSED_RANGE;
    if (at == parameters_length)
        return SCAL_ACCEPTED;
    if (parameters_length - at < 2 || parameters_length - at - 2 < parameters[at + 1])
        return SCAL_REFUSED_MALFORMED;
    fields->found = 1;
    fields->type = parameters[at];
    fields->value_start = at + 2;
    fields->value_length = parameters[at + 1];
    fields->next = at + 2 + parameters[at + 1];
    return SCAL_ACCEPTED;
}

uint64_t twin_timer(uint64_t octet, scal_timer_fields *fields)
{
    memset(fields, 0, sizeof *fields);
    if (octet > 255)
        return SCAL_REFUSED_RANGE;
    read_timer(octet, &fields->kind, &fields->seconds);
    return SCAL_ACCEPTED;
}
