/*
 * twin.h: the calls of scaltrovina.h with the prefix twin_, written by hand in C. Numbers, structs and bounds are those of that header;
 * each call takes, refuses and answers what its namesake does.
 */
#ifndef TWIN_H
#define TWIN_H

#include <scaltrovina.h>

uint64_t twin_table_length(void);
uint64_t twin_open(uint8_t *table, size_t table_length, uint64_t tenant, uint64_t line);
uint64_t twin_close(uint8_t *table, size_t table_length, uint64_t tenant, uint64_t line);
uint64_t twin_list(const uint8_t *table, size_t table_length, uint64_t tenant, uint8_t *listing, size_t listing_length,
                   scal_answer *answer);
uint64_t twin_start(uint8_t *table, size_t table_length, uint64_t tenant, uint64_t line, uint64_t time, uint64_t place, uint64_t mcc,
                    uint64_t registered, uint64_t registered_mcc, uint64_t registered_mnc, uint64_t version, const uint8_t *text,
                    size_t text_length, uint8_t *name, size_t name_length, scal_answer *answer);
uint64_t twin_country(uint8_t *table, size_t table_length, uint64_t tenant, uint64_t line, uint64_t time, uint64_t replied,
                      const uint8_t *networks, size_t networks_length, const uint8_t *text, size_t text_length, uint8_t *name,
                      size_t name_length, scal_answer *answer);
uint64_t twin_address(uint8_t *table, size_t table_length, uint64_t tenant, uint64_t line, uint64_t time, const uint8_t *addresses,
                      size_t addresses_length, scal_answer *answer);
uint64_t twin_begin(uint8_t *table, size_t table_length, uint64_t tenant, uint64_t line, uint64_t time, scal_answer *answer);
uint64_t twin_init(uint8_t *table, size_t table_length, uint64_t tenant, uint64_t line, uint64_t time, scal_answer *answer);
uint64_t twin_eap(uint8_t *table, size_t table_length, uint64_t tenant, uint64_t line, uint64_t time, const uint8_t *packet,
                  size_t packet_length, scal_answer *answer);
uint64_t twin_reply(uint8_t *table, size_t table_length, uint64_t tenant, uint64_t line, uint64_t time, const uint8_t *parameters,
                    size_t parameters_length, const uint8_t *nas, size_t nas_length, uint8_t *reply, size_t reply_length,
                    scal_answer *answer);
uint64_t twin_final(uint8_t *table, size_t table_length, uint64_t tenant, uint64_t line, uint64_t time, uint64_t good,
                    scal_answer *answer);
uint64_t twin_error(uint8_t *table, size_t table_length, uint64_t tenant, uint64_t line, uint64_t time, uint64_t number,
                    scal_answer *answer);
uint64_t twin_congestion(uint8_t *table, size_t table_length, uint64_t tenant, uint64_t line, uint64_t time, uint64_t authenticated,
                         uint64_t timer, scal_answer *answer);
uint64_t twin_give_up(uint8_t *table, size_t table_length, uint64_t tenant, uint64_t line, uint64_t time, scal_answer *answer);
uint64_t twin_child_made(uint8_t *table, size_t table_length, uint64_t tenant, uint64_t line, uint64_t time, uint64_t spi,
                         uint64_t session, scal_answer *answer);
uint64_t twin_child_deleted(uint8_t *table, size_t table_length, uint64_t tenant, uint64_t line, uint64_t time, uint64_t spi,
                            scal_answer *answer);
uint64_t twin_ike_delete(uint8_t *table, size_t table_length, uint64_t tenant, uint64_t line, uint64_t time, scal_answer *answer);

uint64_t twin_read_request(const uint8_t *packet, size_t packet_length, scal_packet_fields *fields);
uint64_t twin_read_response(const uint8_t *packet, size_t packet_length, scal_packet_fields *fields);
uint64_t twin_write_response(uint64_t identifier, const uint8_t *parameters, size_t parameters_length, const uint8_t *nas,
                             size_t nas_length, uint8_t *packet, size_t packet_length, scal_packet_fields *fields);
uint64_t twin_parameter(const uint8_t *parameters, size_t parameters_length, uint64_t at, scal_parameter_fields *fields);
uint64_t twin_timer(uint64_t octet, scal_timer_fields *fields);

#endif
