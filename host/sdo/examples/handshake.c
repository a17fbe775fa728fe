/* A client's handshake and its read of 2001/1, as on the bench card.
 *
 *     cc -I ../include handshake.c ../../../target/staticlib/libexport.a -o handshake
 *
 * Exit status 0 where both answers are the card's.
 */
#include <stdio.h>

#include "sdo.h"

static uint8_t table[SDO_TABLE_SIZE];
static uint8_t area[SDO_AREA_SIZE];
static uint8_t answer[SDO_ANSWER_SIZE];

/* One object, 2001/1, of two bytes: 34 12. */
static uint8_t image[] = {1, 0, 0x01, 0x20, 1, 0, 14, 0, 0, 0, 2, 0, 2, 0, 0x34, 0x12};

static const uint8_t handshake[] = {0, 1, 0, 0};
static const uint8_t read_object[] = {2, 6, 0, 0, 0, 7, 0, 2, 4, 0, 0, 0, 1, 0x20, 1, 0};

static const uint8_t welcome[] = {1, 1, 0, 0, 0, 0, 0x10, 0, 0, 0, 0, 0};
static const uint8_t value[] = {6, 6, 0, 0, 0, 7, 0x10, 0, 2, 0, 0, 0, 0x34, 0x12};

static void show(const char *who, const uint8_t *bytes, size_t length)
{
    size_t at;
    printf("%s", who);
    for (at = 0; at < length; at++)
        printf(" %02X", bytes[at]);
    printf("\n");
}

/* Whether this request is answered by these bytes. */
static int answers(uint64_t client, const uint8_t *request, size_t length,
                   const uint8_t *due, size_t due_length)
{
    struct sdo_answer told =
        sdo_handle_request(table, sizeof table, area, sizeof area, image, sizeof image,
                           answer, sizeof answer, client, 0, request, length);
    show("client", request, length);
    if (told.outcome != SDO_ANSWERED) {
        printf("refused with %d\n", (int)told.outcome);
        return 0;
    }
    show("server", answer, (size_t)told.length);
    return told.client == client && told.length == due_length
           && memcmp(answer, due, due_length) == 0;
}

int main(void)
{
    static const uint8_t ip[4] = {192, 168, 100, 7};
    static const uint8_t mac[6] = {1, 2, 3, 4, 5, 6};
    uint64_t client = sdo_udp_client(ip, 3819);
    struct sdo_answer ticked;
    int right;

    sdo_empty_table(table);
    right = client == 0x000EEB0764A8C001 && sdo_asnd_client(240, mac) == 0x060504030201F000;
    right &= answers(client, handshake, sizeof handshake, welcome, sizeof welcome);
    right &= answers(client, read_object, sizeof read_object, value, sizeof value);
    ticked = sdo_tick(table, sizeof table, area, sizeof area, image, sizeof image,
                      answer, sizeof answer, 1000);
    right &= ticked.outcome == SDO_NOTHING;
    right &= sdo_next_action_time(table, sizeof table).outcome == SDO_NOTHING;
    printf("%s\n", right ? "as on the bench card" : "DIFFERS from the bench card");
    return right ? 0 : 1;
}
