/*
 * scaltrovina.h: the handset side of untrusted non-3GPP access to a 5G core (3GPP TS 24.502, clause 7), for lines that share one table.
 *
 * Introduction
 *
 * A daemon keeps SIM lines for up to sixteen tenants and reaches the core over any WLAN. For each line it chooses a gateway (an N3IWF),
 * goes through IKE and EAP-5G and keeps the child associations. This library holds the rules of that. The daemon tells it what happened to
 * a line, and the answer says what the daemon does next: ask DNS, send a message, hand NAS up, release. Keys, encryption, sockets,
 * timers and DNS transport stay with the daemon.
 *
 * All that the library remembers is in the table, a buffer of SCAL_TABLE_LENGTH octets that the daemon owns and lends with each call.
 * Zeros throughout are the empty table. The library allocates nothing, never blocks, prints nothing, reads no clock and keeps no pointer
 * after it has returned. It has no locks and no variables of its own: calls on one table follow one another, calls on different tables may
 * run at the same time.
 *
 * A call returns 0 where it is accepted, else the lowest refusal number that applies. A refused call leaves the table as it was and its
 * answer and answer buffer all zeros. A caller need not test what it lends: every number out of its range and every octet out of its form
 * is refused. docs/INTERFACE.md explains the numbers, docs/TEXTS.md the texts, packets and lists, docs/TABLE.md the table's octets.
 *
 *     uint8_t table[SCAL_TABLE_LENGTH] = {0}, name[SCAL_NAME_MIN];
 *     const char text[] = "home\t001\t01\n";
 *     scal_answer answer;
 *     uint64_t refusal = scal_open(table, sizeof table, 0, 0);
 *     if (refusal == SCAL_ACCEPTED)
 *         refusal = scal_start(table, sizeof table, 0, 0, now, SCAL_PLACE_HOME, 0, 0, 0, 0, 4,
 *                              (const uint8_t *)text, strlen(text), name, sizeof name, &answer);
 *     if (refusal != SCAL_ACCEPTED)
 *         fprintf(stderr, "%s\n", scal_refusal_name(refusal));
 *     else if (answer.action == SCAL_ACTION_ASK_NAME)
 *         ask_dns((answer.part_in == SCAL_PART_NAME ? name : (const uint8_t *)text) + answer.part_start, answer.part_length);
 *
 * A longer use, from an open line to a live one, is examples/line.c. Link with the flags of `pkg-config --static --libs scaltrovina`.
 *
 * Pointers
 *
 * A slice is a pointer and a length in octets. No pointer may be null, that of a slice of length 0 neither. What one call is lent must
 * not overlap: the table, each slice, the answer. Nothing else may change it until the call has returned. What an answer or an answer
 * buffer held before the call does not matter.
 */
#ifndef SCALTROVINA_H
#define SCALTROVINA_H

#include <stddef.h>
#include <stdint.h>

#ifdef __cplusplus
extern "C" {
#endif

/* ---- Version ---- */

#define SCAL_VERSION_MAJOR 0
#define SCAL_VERSION_MINOR 1
#define SCAL_VERSION_PATCH 0

/* One number that rises with the version, and the version as a text. */
#define SCAL_VERSION (SCAL_VERSION_MAJOR * 10000 + SCAL_VERSION_MINOR * 100 + SCAL_VERSION_PATCH)
#define SCAL_VERSION_STRING SCAL_VERSION_TEXT(SCAL_VERSION_MAJOR, SCAL_VERSION_MINOR, SCAL_VERSION_PATCH)
#define SCAL_VERSION_TEXT(major, minor, patch) SCAL_VERSION_JOINED(major, minor, patch)
#define SCAL_VERSION_JOINED(major, minor, patch) #major "." #minor "." #patch

/* ---- Bounds ---- */

/* The table: its length, its records, one for each open pair, and the pairs that there are. */
#define SCAL_TABLE_LENGTH 7776
#define SCAL_RECORDS 32
#define SCAL_TENANT_MAX 15
#define SCAL_LINE_MAX 3

/* The least lengths of answer buffers. */
#define SCAL_NAME_MIN 64
#define SCAL_REPLY_MIN 3090
#define SCAL_LISTING_MIN 1024

/* The greatest lengths of what is lent, and the entries of lent lists. */
#define SCAL_TEXT_MAX 1024
#define SCAL_NAS_MAX 2048
#define SCAL_PARAMETERS_MAX 1024
#define SCAL_ENTRIES_MAX 16
#define SCAL_NETWORK_LENGTH 4
#define SCAL_ADDRESS_LENGTH 17

/* Numbers: a time in seconds, an MCC or MNC, an error notify, a child's SPI and session. */
#define SCAL_TIME_MAX UINT64_C(4294967295)
#define SCAL_CODE_MAX 999
#define SCAL_ERROR_MAX 16383
#define SCAL_SPI_MIN 256
#define SCAL_SPI_MAX UINT64_C(4294967295)
#define SCAL_SESSION_MAX 15

/* How many children and holds a line may have. */
#define SCAL_CHILDREN_MAX 8
#define SCAL_HOLDS_MAX 8

/* ---- Refusals ---- */

/* What a call returns. */
enum scal_refusal {
    SCAL_ACCEPTED = 0,
    SCAL_REFUSED_TABLE = 1,      /* the table is not sound */
    SCAL_REFUSED_PAIR = 2,       /* the tenant is above 15 or the line above 3 */
    SCAL_REFUSED_BUFFER = 3,     /* the answer buffer is too short */
    SCAL_REFUSED_OPEN = 4,       /* the pair to open is open already */
    SCAL_REFUSED_NOT_OPEN = 5,   /* the pair is not open */
    SCAL_REFUSED_FULL = 6,       /* all 32 records are taken */
    SCAL_REFUSED_EARLY = 7,      /* the time is earlier than the line's last accepted one */
    SCAL_REFUSED_RANGE = 8,      /* a number, a count or a length is out of its range */
    SCAL_REFUSED_MALFORMED = 9,  /* a configuration text, AN-parameters or a packet is not well formed, or is none that the call reads */
    SCAL_REFUSED_PHASE = 10,     /* the event is not allowed in the line's phase, or not with this SPI, identifier or authentication */
    SCAL_REFUSED_SPI = 11,       /* the SPI is on this line already */
    SCAL_REFUSED_CHILDREN = 12,  /* eight children stand */
    SCAL_REFUSED_HOLDS = 13      /* eight holds are in force */
};

/* A refusal in words. */
static inline const char *scal_refusal_name(uint64_t refusal)
{
    switch (refusal) {
    case SCAL_ACCEPTED: return "accepted";
    case SCAL_REFUSED_TABLE: return "the table is not sound";
    case SCAL_REFUSED_PAIR: return "the tenant is above 15 or the line above 3";
    case SCAL_REFUSED_BUFFER: return "the answer buffer is too short";
    case SCAL_REFUSED_OPEN: return "the pair is open already";
    case SCAL_REFUSED_NOT_OPEN: return "the pair is not open";
    case SCAL_REFUSED_FULL: return "all 32 records are taken";
    case SCAL_REFUSED_EARLY: return "the time is earlier than the line's last accepted one";
    case SCAL_REFUSED_RANGE: return "a number, count or length is out of range, abroad has the home MCC, or a first reply lacks AN-parameters";
    case SCAL_REFUSED_MALFORMED: return "a text, AN-parameters or a packet is not well formed, or is none that the call reads";
    case SCAL_REFUSED_PHASE: return "the event is not allowed in this phase, or not with this SPI, identifier or authentication";
    case SCAL_REFUSED_SPI: return "the SPI is on this line already";
    case SCAL_REFUSED_CHILDREN: return "eight children stand";
    case SCAL_REFUSED_HOLDS: return "eight holds are in force";
    default: return "no refusal number";
    }
}

/* ---- Answers ---- */

/* What the daemon does next. */
enum scal_action {
    SCAL_ACTION_NONE = 0,               /* nothing; of a listing, read it */
    SCAL_ACTION_STOPPED = 1,            /* nothing: selection stopped and the line is idle (stop, passed) */
    SCAL_ACTION_ASK_COUNTRY = 2,        /* ask DNS for the visited-country name (the part) */
    SCAL_ACTION_ASK_NAME = 3,           /* ask DNS for the gateway's name (the part) */
    SCAL_ACTION_CHOSEN = 4,             /* use the chosen address (version, high, low, passed) */
    SCAL_ACTION_SEND_INIT = 5,          /* send IKE_SA_INIT */
    SCAL_ACTION_SEND_AUTH_REQUEST = 6,  /* send IKE_AUTH without AUTH */
    SCAL_ACTION_ASK_NAS = 7,            /* ask the upper layer for NAS */
    SCAL_ACTION_HAND_UP = 8,            /* hand NAS up (the part) */
    SCAL_ACTION_SEND_RESPONSE = 9,      /* send the response (the first `written` octets of the reply buffer) */
    SCAL_ACTION_SEND_AUTH = 10,         /* send AUTH */
    SCAL_ACTION_LIVE = 11,              /* the line is live */
    SCAL_ACTION_RELEASED = 12,          /* release the line's associations (eap_ended) */
    SCAL_ACTION_ERROR = 13              /* hand the error up (error, eap_ended) */
};

/* An action in words. */
static inline const char *scal_action_name(uint64_t action)
{
    switch (action) {
    case SCAL_ACTION_NONE: return "nothing to do";
    case SCAL_ACTION_STOPPED: return "selection stopped";
    case SCAL_ACTION_ASK_COUNTRY: return "ask DNS for the visited-country name";
    case SCAL_ACTION_ASK_NAME: return "ask DNS for the gateway's name";
    case SCAL_ACTION_CHOSEN: return "an address is chosen";
    case SCAL_ACTION_SEND_INIT: return "send IKE_SA_INIT";
    case SCAL_ACTION_SEND_AUTH_REQUEST: return "send IKE_AUTH without AUTH";
    case SCAL_ACTION_ASK_NAS: return "ask the upper layer for NAS";
    case SCAL_ACTION_HAND_UP: return "hand NAS up";
    case SCAL_ACTION_SEND_RESPONSE: return "send the response";
    case SCAL_ACTION_SEND_AUTH: return "send AUTH";
    case SCAL_ACTION_LIVE: return "the line is live";
    case SCAL_ACTION_RELEASED: return "release the associations";
    case SCAL_ACTION_ERROR: return "hand the error up";
    default: return "no action number";
    }
}

/* Where selection stopped. */
enum scal_stop {
    SCAL_STOP_PLACE = 1,     /* the place is unknown */
    SCAL_STOP_NO_REPLY = 2,  /* the country query got no reply */
    SCAL_STOP_BARRED = 3,    /* every listed network is barred */
    SCAL_STOP_ADDRESS = 4    /* no address of the list is permitted */
};

/* Which slice holds the part that is handed back. */
enum scal_part {
    SCAL_PART_NONE = 0,   /* there is no part */
    SCAL_PART_TEXT = 1,   /* the configuration text */
    SCAL_PART_NAME = 2,   /* the name buffer */
    SCAL_PART_PACKET = 3  /* the packet */
};

/* The twelve numbers of an answer. A number that the action does not have is 0. */
typedef struct scal_answer {
    uint64_t action;       /* an enum scal_action */
    uint64_t stop;         /* an enum scal_stop */
    uint64_t passed;       /* how many addresses were passed over, 0 to 16 */
    uint64_t part_in;      /* an enum scal_part */
    uint64_t part_start;   /* where the part starts in that slice; it lies within the slice */
    uint64_t part_length;  /* how many octets it has */
    uint64_t version;      /* the IP version of the chosen address, 4 or 6 */
    uint64_t high;         /* its upper 64 bits, 0 in version 4 */
    uint64_t low;          /* its lower 64 bits, in version 4 all of it */
    uint64_t eap_ended;    /* 1 where an error notify or congestion ended an EAP session */
    uint64_t error;        /* the error to hand up, 1 to 16,383 */
    uint64_t written;      /* how many octets of the answer buffer are written: a built name, the response, the listing */
} scal_answer;

typedef char scal_answer_has_twelve_numbers[sizeof(scal_answer) == 12 * sizeof(uint64_t) ? 1 : -1];

/* ---- Open, close, listing ---- */

/*
 * Each call on the table may be refused by 1 and 2; the comment of each names what else it may be refused by. After a call, accepted or
 * refused, an answer buffer holds what is written and then zeros.
 */

/* The length that a sound table has. It is SCAL_TABLE_LENGTH where the header and the library are of one version. Never refused. */
uint64_t scal_table_length(void);

/*
 * Opens the pair (tenant, line): an idle line with no child and no hold, its time 0.
 * Refused by 4 (the pair is open already) and 6 (all records are taken).
 */
uint64_t scal_open(uint8_t *table, size_t table_length, uint64_t tenant, uint64_t line);

/*
 * Closes the pair, in any phase. Its record becomes zeros, so that children and holds end with it.
 * Refused by 5 (the pair is not open).
 */
uint64_t scal_close(uint8_t *table, size_t table_length, uint64_t tenant, uint64_t line);

/*
 * Writes the open lines of one tenant and their children as a text. The table does not change.
 * Refused by 3 (listing under SCAL_LISTING_MIN); 2 is of the tenant alone.
 * Answer: SCAL_ACTION_NONE with `written`, which is 0 where no line is open.
 */
uint64_t scal_list(const uint8_t *table, size_t table_length, uint64_t tenant, uint8_t *listing, size_t listing_length,
                   scal_answer *answer);

/* ---- Choosing a gateway ---- */

/*
 * From here on every call on the table carries a time in seconds, which the line stores where the call is accepted; each line has a clock
 * of its own. A line's ended holds are dropped at each accepted call. Each of these calls may be refused by 5 (the pair is not open),
 * 7 (the time is earlier than the line's), 8 (a time above SCAL_TIME_MAX) and 10 (not allowed in this phase); its comment names the rest.
 */

/* Where a line is. */
enum scal_place {
    SCAL_PLACE_UNKNOWN = 0,
    SCAL_PLACE_HOME = 1,
    SCAL_PLACE_ABROAD = 2  /* in the country of an MCC */
};

/*
 * Starts the selection of a gateway on an idle line.
 * place is an enum scal_place; mcc is the visited MCC abroad, else 0. registered is 1 where the line is registered to the PLMN of
 * registered_mcc and registered_mnc, else all three are 0. version is the local IP version, 4 or 6. text is the configuration text.
 * Refused by 3 (name under SCAL_NAME_MIN), 8 (a number out of its range, text over SCAL_TEXT_MAX, abroad with the text's home MCC),
 * 9 (text not well formed) and 13 (eight holds in force).
 * Answer: SCAL_ACTION_STOPPED (stop 1 or 4), SCAL_ACTION_ASK_COUNTRY (the part in the name buffer), SCAL_ACTION_ASK_NAME (the part in the
 * text or in the name buffer), or SCAL_ACTION_CHOSEN where the text gives an address.
 */
uint64_t scal_start(uint8_t *table, size_t table_length, uint64_t tenant, uint64_t line, uint64_t time, uint64_t place, uint64_t mcc,
                    uint64_t registered, uint64_t registered_mcc, uint64_t registered_mnc, uint64_t version, const uint8_t *text,
                    size_t text_length, uint8_t *name, size_t name_length, scal_answer *answer);

/*
 * Takes the answer to the visited-country query, in phase country.
 * replied is 1 where DNS answered, else 0. networks has the listed PLMNs in entries of SCAL_NETWORK_LENGTH octets, none without a reply:
 * MCC, then MNC, each two octets, the upper one first.
 * Refused by 3 (name under SCAL_NAME_MIN), 8 (replied or networks out of range, text over SCAL_TEXT_MAX, the visited MCC is the text's
 * home MCC) and 9 (text not well formed).
 * Answer: SCAL_ACTION_STOPPED (stop 2, 3 or 4), SCAL_ACTION_ASK_NAME, or SCAL_ACTION_CHOSEN where the text gives an address.
 */
uint64_t scal_country(uint8_t *table, size_t table_length, uint64_t tenant, uint64_t line, uint64_t time, uint64_t replied,
                      const uint8_t *networks, size_t networks_length, const uint8_t *text, size_t text_length, uint8_t *name,
                      size_t name_length, scal_answer *answer);

/*
 * Takes the addresses that DNS gave for the gateway's name, in phase name: entries of SCAL_ADDRESS_LENGTH octets. No reply is an empty
 * list. An entry is the version (4 or 6) and 16 octets, for version 4 its four and twelve zeros. The first address of the local IP version
 * that is not on hold is chosen.
 * Refused by 8 (addresses out of range).
 * Answer: SCAL_ACTION_CHOSEN, or SCAL_ACTION_STOPPED (stop 4); both with `passed`.
 */
uint64_t scal_address(uint8_t *table, size_t table_length, uint64_t tenant, uint64_t line, uint64_t time, const uint8_t *addresses,
                      size_t addresses_length, scal_answer *answer);

/* ---- IKE and EAP ---- */

/* Begins the IKE exchange with the chosen address, in phase chosen. Answer: SCAL_ACTION_SEND_INIT. */
uint64_t scal_begin(uint8_t *table, size_t table_length, uint64_t tenant, uint64_t line, uint64_t time, scal_answer *answer);

/* Takes the answer to IKE_SA_INIT, in phase init. Answer: SCAL_ACTION_SEND_AUTH_REQUEST. */
uint64_t scal_init(uint8_t *table, size_t table_length, uint64_t tenant, uint64_t line, uint64_t time, scal_answer *answer);

/*
 * Takes an EAP packet of the network: Start in phase auth; a NAS request or Success in phase eap once the last request is replied to,
 * Success with the identifier of the last reply.
 * Refused by 9 (any other packet).
 * Answer: SCAL_ACTION_ASK_NAS for Start, SCAL_ACTION_HAND_UP (the part in the packet) for a NAS request, SCAL_ACTION_SEND_AUTH for Success.
 */
uint64_t scal_eap(uint8_t *table, size_t table_length, uint64_t tenant, uint64_t line, uint64_t time, const uint8_t *packet,
                  size_t packet_length, scal_answer *answer);

/*
 * Writes the NAS response to the last request, with its identifier, in phase eap while that request is not replied to.
 * parameters has the AN-parameters; only the session's first reply must have some. nas has 1 to SCAL_NAS_MAX octets.
 * Refused by 3 (reply under SCAL_REPLY_MIN), 8 (parameters over SCAL_PARAMETERS_MAX or missing in the first reply, nas empty or too long)
 * and 9 (parameters not well formed).
 * Answer: SCAL_ACTION_SEND_RESPONSE with `written`.
 */
uint64_t scal_reply(uint8_t *table, size_t table_length, uint64_t tenant, uint64_t line, uint64_t time, const uint8_t *parameters,
                    size_t parameters_length, const uint8_t *nas, size_t nas_length, uint8_t *reply, size_t reply_length,
                    scal_answer *answer);

/*
 * Takes the last IKE_AUTH answer, in phase sure; good is 1 where its AUTH is good, else 0.
 * Refused by 8 (good above 1).
 * Answer: SCAL_ACTION_LIVE, or SCAL_ACTION_RELEASED where AUTH is bad; the line is then idle.
 */
uint64_t scal_final(uint8_t *table, size_t table_length, uint64_t tenant, uint64_t line, uint64_t time, uint64_t good,
                    scal_answer *answer);

/* ---- How an attempt ends early ---- */

/*
 * Takes an error notify, in phases auth, eap and sure; the line is then idle. Congestion is a call of its own.
 * Refused by 8 (number not 1 to SCAL_ERROR_MAX).
 * Answer: SCAL_ACTION_ERROR with `error` and `eap_ended`.
 */
uint64_t scal_error(uint8_t *table, size_t table_length, uint64_t tenant, uint64_t line, uint64_t time, uint64_t number,
                    scal_answer *answer);

/*
 * Takes a congestion notify, in phases auth, eap and sure; the line is then idle, and the back-off timer octet says how long the chosen
 * address is held. authenticated is 1 where the network is authenticated; 0 is refused by 10 in every phase.
 * Refused by 8 (authenticated above 1, timer above 255).
 * Answer: SCAL_ACTION_RELEASED with `eap_ended`.
 */
uint64_t scal_congestion(uint8_t *table, size_t table_length, uint64_t tenant, uint64_t line, uint64_t time, uint64_t authenticated,
                         uint64_t timer, scal_answer *answer);

/* Gives the attempt up, in every phase but idle and live; the line is then idle. Answer: SCAL_ACTION_NONE. */
uint64_t scal_give_up(uint8_t *table, size_t table_length, uint64_t tenant, uint64_t line, uint64_t time, scal_answer *answer);

/* ---- A live line ---- */

/*
 * Adds a child association behind the others, in phase live.
 * Refused by 8 (spi not SCAL_SPI_MIN to SCAL_SPI_MAX, session not 1 to SCAL_SESSION_MAX), 11 (the SPI is on this line already) and
 * 12 (eight children stand).
 * Answer: SCAL_ACTION_NONE.
 */
uint64_t scal_child_made(uint8_t *table, size_t table_length, uint64_t tenant, uint64_t line, uint64_t time, uint64_t spi,
                         uint64_t session, scal_answer *answer);

/* Takes a child association away, in phase live; an SPI that the line does not have is refused by 10. Answer: SCAL_ACTION_NONE. */
uint64_t scal_child_deleted(uint8_t *table, size_t table_length, uint64_t tenant, uint64_t line, uint64_t time, uint64_t spi,
                            scal_answer *answer);

/* Takes an IKE delete, in phase live; the line is then idle and has no child. Answer: SCAL_ACTION_RELEASED. */
uint64_t scal_ike_delete(uint8_t *table, size_t table_length, uint64_t tenant, uint64_t line, uint64_t time, scal_answer *answer);

/* ---- Packets, parameters and timers without a table ---- */

/* These calls keep nothing. Each answers in six numbers, all zeros where it is refused. */

/* Which packet it is. */
enum scal_packet_kind {
    SCAL_PACKET_START = 1,
    SCAL_PACKET_NAS = 2,
    SCAL_PACKET_SUCCESS = 3
};

/* A packet; places are counted from its first octet. Start and Success have no places, a NAS request has none of parameters: they are 0. */
typedef struct scal_packet_fields {
    uint64_t kind;               /* an enum scal_packet_kind */
    uint64_t identifier;         /* 0 to 255 */
    uint64_t parameters_start;   /* of a response without parameters, where they would stand */
    uint64_t parameters_length;
    uint64_t nas_start;
    uint64_t nas_length;
} scal_packet_fields;

/* One AN-parameter; places are counted from the first octet of the block. All numbers are 0 at the end of the block. */
typedef struct scal_parameter_fields {
    uint64_t found;         /* 1 where there is one */
    uint64_t type;          /* 0 to 255 */
    uint64_t value_start;
    uint64_t value_length;  /* 0 to 255 */
    uint64_t next;          /* where the next one starts */
    uint64_t unused;        /* 0 */
} scal_parameter_fields;

/* What a timer octet says. */
enum scal_timer_kind {
    SCAL_TIMER_NONE = 0,        /* no hold */
    SCAL_TIMER_SECONDS = 1,     /* a hold of so many seconds */
    SCAL_TIMER_DEACTIVATED = 2  /* a hold without end */
};

typedef struct scal_timer_fields {
    uint64_t kind;       /* an enum scal_timer_kind */
    uint64_t seconds;    /* above 0 where the kind is seconds, else 0 */
    uint64_t unused[4];  /* 0 */
} scal_timer_fields;

typedef char scal_packet_fields_has_six_numbers[sizeof(scal_packet_fields) == 6 * sizeof(uint64_t) ? 1 : -1];
typedef char scal_parameter_fields_has_six_numbers[sizeof(scal_parameter_fields) == 6 * sizeof(uint64_t) ? 1 : -1];
typedef char scal_timer_fields_has_six_numbers[sizeof(scal_timer_fields) == 6 * sizeof(uint64_t) ? 1 : -1];

/* Reads Start, a NAS request or Success. Refused by 9 (any other packet). */
uint64_t scal_read_request(const uint8_t *packet, size_t packet_length, scal_packet_fields *fields);

/* Reads a NAS response; its kind is SCAL_PACKET_NAS. Refused by 9 (any other packet, Stop too). */
uint64_t scal_read_response(const uint8_t *packet, size_t packet_length, scal_packet_fields *fields);

/*
 * Writes a NAS response and then zeros, and answers with the fields that scal_read_response reads from it. The response has
 * nas_start + nas_length octets.
 * Refused by 3 (packet under SCAL_REPLY_MIN), 8 (identifier above 255, parameters over SCAL_PARAMETERS_MAX, nas empty or over SCAL_NAS_MAX)
 * and 9 (parameters not well formed); the packet buffer is then zeros.
 */
uint64_t scal_write_response(uint64_t identifier, const uint8_t *parameters, size_t parameters_length, const uint8_t *nas,
                             size_t nas_length, uint8_t *packet, size_t packet_length, scal_packet_fields *fields);

/*
 * Reads the AN-parameter at a place of a block. A walk starts at 0, goes on at `next` and ends where a call is accepted with `found` 0.
 * Refused by 8 (at past the end of the block, block over SCAL_PARAMETERS_MAX) and 9 (the parameter runs past the end: a broken block).
 */
uint64_t scal_parameter(const uint8_t *parameters, size_t parameters_length, uint64_t at, scal_parameter_fields *fields);

/* Reads a back-off timer octet. Refused by 8 (octet above 255). */
uint64_t scal_timer(uint64_t octet, scal_timer_fields *fields);

#ifdef __cplusplus
}
#endif

#endif
