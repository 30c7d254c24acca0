/* Receives a stream of NAKs in fragments of 1, 7 and 3,000 bytes, as a link may hand them over, and prints what each way of cutting
   it gave: the NAKs and what they ask for, where the stream was refused, that the refusal stays, and the fresh state after a
   reset. */
#include <inttypes.h>
#include <stdio.h>
#include <string.h>

#include "cfdp.h"

/* One request, 100 to 200; and with a checksum 300 to 400 and 500 to 600. Then the header of a PDU of 2,049 bytes. */
static const uint8_t one[] = {0x28, 0x00, 0x11, 0x00, 0x01, 0x02, 0x03, 0x08, 0x00, 0x00, 0x00, 0x00,
                              0x00, 0x00, 0x03, 0xE8, 0x00, 0x00, 0x00, 0x64, 0x00, 0x00, 0x00, 0xC8};
static const uint8_t two[] = {0x2A, 0x00, 0x1B, 0x00, 0x01, 0x02, 0x03, 0x08, 0x00, 0x00, 0x00, 0x00,
                              0x00, 0x00, 0x03, 0xE8, 0x00, 0x00, 0x01, 0x2C, 0x00, 0x00, 0x01, 0x90,
                              0x00, 0x00, 0x01, 0xF4, 0x00, 0x00, 0x02, 0x58, 0xB3, 0xFC};
static const uint8_t large[] = {0x28, 0x07, 0xFA, 0x00, 0x01, 0x02, 0x03, 0x08, 0x00, 0x00};

enum { ROUNDS = 150, STREAM = ROUNDS * (sizeof one + sizeof two) + sizeof large };

/* What was heard of a stream. */
struct heard {
    size_t taken, naks;
    uint64_t requests, bytes, refused;
};

static void count(const uint8_t *window, const uint64_t *answer, struct heard *heard) {
    uint64_t pair[2];
    const uint8_t *area = window + answer[CFDP_ANSWER_NAK_AREA];
    size_t area_len = answer[CFDP_ANSWER_NAK_STOP] - answer[CFDP_ANSWER_NAK_AREA];
    heard->naks++;
    for (size_t i = 0; cfdp_nak_pair(area, area_len, answer[CFDP_ANSWER_LARGE] != 0, i, pair); i++) {
        heard->requests++;
        heard->bytes += pair[1] - pair[0];
    }
}

/* Offers a fragment until it is used up or refused. */
static void offer(uint8_t *window, size_t *filled, const uint8_t *fragment, size_t length, struct heard *heard) {
    uint64_t answer[CFDP_ANSWER_LEN];
    while (length > 0) {
        size_t taken = cfdp_receive(window, filled, fragment, length, answer);
        fragment += taken;
        length -= taken;
        heard->taken += taken;
        if (answer[CFDP_ANSWER_NUMBER] == CFDP_ACCEPTED) {
            count(window, answer, heard);
        } else if (answer[CFDP_ANSWER_NUMBER] != CFDP_RECEIVE_MORE) {
            heard->refused = answer[CFDP_ANSWER_NUMBER];
            return;
        }
    }
}

int main(void) {
    static const size_t sizes[] = {1, 7, 3000};
    static uint8_t stream[STREAM];
    size_t end = 0;
    for (int i = 0; i < ROUNDS; i++) {
        memcpy(stream + end, one, sizeof one);
        memcpy(stream + end + sizeof one, two, sizeof two);
        end += sizeof one + sizeof two;
    }
    memcpy(stream + end, large, sizeof large);
    for (size_t k = 0; k < sizeof sizes / sizeof *sizes; k++) {
        uint8_t window[CFDP_WINDOW_LEN] = {0};
        uint64_t answer[CFDP_ANSWER_LEN];
        struct heard heard = {0, 0, 0, 0, 0};
        size_t filled = 0;
        for (size_t at = 0; at < STREAM && heard.refused == 0; at += sizes[k])
            offer(window, &filled, stream + at, at + sizes[k] < STREAM ? sizes[k] : STREAM - at, &heard);
        printf("in %zu: %zu naks, %" PRIu64 " requests for %" PRIu64 " bytes, refused %" PRIu64 " at %zu, filled %zu\n", sizes[k],
               heard.naks, heard.requests, heard.bytes, heard.refused, heard.taken, filled);
        size_t taken = cfdp_receive(window, &filled, one, sizeof one, answer);
        printf("again %" PRIu64 ", %zu taken, filled %zu\n", answer[CFDP_ANSWER_NUMBER], taken, filled);
        memset(window, 0, sizeof window);
        filled = 0;
        taken = cfdp_receive(window, &filled, one, sizeof one, answer);
        printf("reset %" PRIu64 ", %zu taken, filled %zu\n", answer[CFDP_ANSWER_NUMBER], taken, filled);
    }
    return 0;
}
