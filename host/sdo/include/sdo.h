/* The proved SDO server: three calls on lent bytes, in an archive made by
 * `tools/build export_c`. Link: cc program.c libexport.a
 *
 * The caller keeps the table and the area, and lends them with the dictionary
 * image and an answer buffer to each call. Bytes that are lent to one call must
 * not overlap; the archive asks nothing else. Clocks are microseconds from any
 * start. What a call is refused with, and what it leaves, is document 01's table.
 */
#ifndef SDO_H
#define SDO_H

#include <stddef.h>
#include <stdint.h>
#include <string.h>

#ifdef __cplusplus
extern "C" {
#endif

enum {
    SDO_RECORDS = 8,       /* clients at a time */
    SDO_RECORD_SIZE = 40,
    SDO_TABLE_SIZE = 320,  /* bytes of the table */
    SDO_AREA_SIZE = 65536, /* bytes of the area */
    SDO_ANSWER_SIZE = 1468, /* bytes that the answer buffer has at least */
    SDO_MOST_REQUEST = 1500 /* bytes of the longest request */
};

enum sdo_outcome {
    SDO_ANSWERED = 0,      /* the answer's first `length` bytes go to `client` */
    SDO_LENGTHS = 1,       /* answer under 1,468, area not 65,536, table not 320 */
    SDO_IMAGE = 2,         /* the dictionary image is not sound */
    SDO_TABLE = 3,         /* the table, or a client's kind, is not sound */
    SDO_CLOCK = 4,         /* the clock is above 2^63 - 1 */
    SDO_SHORT_REQUEST = 5, /* under 4 bytes */
    SDO_LONG_REQUEST = 6,  /* above 1,500 bytes */
    SDO_NO_ROOM = 7,       /* eight other clients are connected */
    SDO_SEQUENCE = 8,      /* wrong sequence number or mark */
    SDO_EMPTY = 9,         /* an empty command without use */
    SDO_DEADLINE = 254,    /* of the deadline query: there is one */
    SDO_NOTHING = 255      /* a tick that answers nobody; no deadline */
};

/* length and client are 0 unless outcome is SDO_ANSWERED. */
struct sdo_answer {
    uint64_t outcome;
    uint64_t length;
    uint64_t client;
};

/* at is 0 unless outcome is SDO_DEADLINE. */
struct sdo_deadline {
    uint64_t outcome;
    uint64_t at;
};

/* Serves a client's frame, from the sequence header on. */
struct sdo_answer sdo_handle_request(uint8_t *table, size_t table_len,
                                     uint8_t *area, size_t area_len,
                                     uint8_t *image, size_t image_len,
                                     uint8_t *answer, size_t answer_len,
                                     uint64_t client, uint64_t clock,
                                     const uint8_t *request, size_t request_len);

/* Answers the first client that is due, if one is, and drops closed ones. */
struct sdo_answer sdo_tick(uint8_t *table, size_t table_len,
                           const uint8_t *area, size_t area_len,
                           const uint8_t *image, size_t image_len,
                           uint8_t *answer, size_t answer_len,
                           uint64_t clock);

/* The earliest deadline. */
struct sdo_deadline sdo_next_action_time(const uint8_t *table, size_t table_len);

/* Eight client bytes as a number, the first lowest. */
static inline uint64_t sdo_client_number(const uint8_t bytes[8])
{
    uint64_t number = 0;
    int at;
    for (at = 7; at >= 0; at--)
        number = number << 8 | bytes[at];
    return number;
}

/* A client over UDP: the address in wire order, and the port. */
static inline uint64_t sdo_udp_client(const uint8_t ip[4], uint16_t port)
{
    uint8_t bytes[8] = {1, 0, 0, 0, 0, 0, 0, 0};
    memcpy(bytes + 1, ip, 4);
    bytes[5] = (uint8_t)(port & 0xFF);
    bytes[6] = (uint8_t)(port >> 8);
    return sdo_client_number(bytes);
}

/* A client on the bus: its node, and its MAC address in wire order. */
static inline uint64_t sdo_asnd_client(uint8_t node, const uint8_t mac[6])
{
    uint8_t bytes[8] = {0, 0, 0, 0, 0, 0, 0, 0};
    bytes[1] = node;
    memcpy(bytes + 2, mac, 6);
    return sdo_client_number(bytes);
}

/* The table with nobody connected. */
static inline void sdo_empty_table(uint8_t table[SDO_TABLE_SIZE])
{
    int record;
    memset(table, 0, SDO_TABLE_SIZE);
    for (record = 0; record < SDO_RECORDS; record++) {
        table[record * SDO_RECORD_SIZE + 9] = (uint8_t)record; /* area number */
        table[record * SDO_RECORD_SIZE + 11] = 63;             /* receive number */
    }
}

#ifdef __cplusplus
}
#endif

#endif
