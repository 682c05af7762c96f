/* Packets, and transactions to the network and back. */
#ifndef REPLAY_NETWORK_H
#define REPLAY_NETWORK_H

#include "replay_words.h"

/* Each number that the kind has not is 0. */
static bool has_only_its_own(const uint64_t *x)
{
    bool request = x[PTP_PACKET_KIND] == PTP_PACKET_REQUEST, start = x[PTP_PACKET_KIND] == PTP_PACKET_START_DATA;
    bool coded = request || x[PTP_PACKET_KIND] == PTP_PACKET_RESPONSE;
    bool part = start ? x[PTP_PACKET_START] == 0 && x[PTP_PACKET_LENGTH] == 0
                      : x[PTP_PACKET_START] + x[PTP_PACKET_LENGTH] == x[PTP_PACKET_NEXT];
    return (request || x[PTP_PACKET_PHASE] == 0) && (coded || x[PTP_PACKET_CODE] == 0) && (start || x[PTP_PACKET_TOTAL] == 0) && part;
}

static void packet(size_t at, const uint8_t *s, size_t len)
{
    uint64_t x[PTP_PACKET_NUMBERS];
    if (!gave(ptp_read_packet(s, len, at, x, PTP_PACKET_NUMBERS), 8))
        return;
    printf(has_only_its_own(x) ? "ok" : "? ok");
    print_number(x[PTP_PACKET_KIND]);
    if (x[PTP_PACKET_KIND] == PTP_PACKET_REQUEST)
        print_number(x[PTP_PACKET_PHASE]);
    if (x[PTP_PACKET_KIND] == PTP_PACKET_REQUEST || x[PTP_PACKET_KIND] == PTP_PACKET_RESPONSE)
        print_number(x[PTP_PACKET_CODE]);
    print_number(x[PTP_PACKET_NUMBER]);
    if (x[PTP_PACKET_KIND] == PTP_PACKET_START_DATA) {
        print_number(x[PTP_PACKET_TOTAL]);
    } else {
        print_number(x[PTP_PACKET_START]);
        print_number(x[PTP_PACKET_LENGTH]);
    }
    print_number(x[PTP_PACKET_NEXT]);
}

static void translate(const char *kind, char *const *word)
{
    bool to = strcmp(kind, "to-network") == 0;
    size_t len = read_bytes(word[to ? 2 : 1], first), room = number_of(word[to ? 3 : 2]);
    memset(second, 0xA5, room);
    int64_t answer = to ? ptp_to_network(first, len, strcmp(word[1], "out") == 0, second, room) : ptp_from_network(first, len, second, room);
    print_written(answer, second, room);
}

#endif
