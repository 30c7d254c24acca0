/* Calls libcfdp.a from C with document 01's NAK N: reads it, prints it, writes it back in both ways, has a reading and a writing
   refused, compares, and cuts a stream into its PDUs. */
#include <inttypes.h>
#include <stdio.h>
#include <string.h>

#include "cfdp.h"

static const uint8_t N[24] = {0x28, 0x00, 0x11, 0x00, 0x01, 0x02, 0x03, 0x08, 0x00, 0x00, 0x00, 0x00,
                              0x00, 0x00, 0x03, 0xE8, 0x00, 0x00, 0x00, 0x64, 0x00, 0x00, 0x00, 0xC8};

static void print_refusal(const uint64_t answer[CFDP_ANSWER_LEN]) {
    printf("refused %" PRIu64 " %" PRIu64 " %" PRIu64, answer[CFDP_ANSWER_NUMBER], answer[CFDP_ANSWER_FIRST],
           answer[CFDP_ANSWER_SECOND]);
}

static void print_numbers(const uint64_t answer[CFDP_ANSWER_LEN]) {
    printf("numbers");
    for (size_t i = 0; i < CFDP_ANSWER_LEN; i++)
        printf(" %" PRIu64, answer[i]);
    printf("\n");
}

static void list(const uint8_t *bytes, size_t length) {
    uint64_t answer[CFDP_ANSWER_LEN];
    cfdp_nak_read(bytes, length, answer);
    print_numbers(answer);
    if (answer[CFDP_ANSWER_NUMBER] != CFDP_ACCEPTED) {
        print_refusal(answer);
        printf("\n");
        return;
    }
    printf("nak %" PRIu64 " %" PRIu64 " %" PRIu64 "\n", answer[CFDP_ANSWER_SOURCE], answer[CFDP_ANSWER_SEQUENCE],
           answer[CFDP_ANSWER_DESTINATION]);
    printf("scope %" PRIu64 " %" PRIu64 "\n", answer[CFDP_ANSWER_NAK_START], answer[CFDP_ANSWER_NAK_END]);
    const uint8_t *area = bytes + answer[CFDP_ANSWER_NAK_AREA];
    size_t area_len = answer[CFDP_ANSWER_NAK_STOP] - answer[CFDP_ANSWER_NAK_AREA];
    uint64_t pair[2];
    for (size_t i = 0; cfdp_nak_pair(area, area_len, answer[CFDP_ANSWER_LARGE] != 0, i, pair); i++)
        printf("request %" PRIu64 " %" PRIu64 "\n", pair[0], pair[1]);
    printf("end %" PRIu64 "\n", answer[CFDP_ANSWER_NAK_STOP]);
}

/* N's numbers: flags clear, widths 1; the direction bit is the writer's */
static const uint8_t shape[CFDP_SHAPE_LEN] = {0, 0, 0, 0, 0, 0, 0, 1, 1, 1};
static const uint64_t ids[CFDP_IDS_LEN] = {1, 2, 3};
static const uint32_t numbers[2] = {100, 200};

static void write_n(uint8_t *buf, size_t length, uint64_t answer[CFDP_ANSWER_LEN]) {
    cfdp_nak_write_normal(shape, ids, 0, 1000, numbers, 2, buf, length, answer);
}

static const char *same(const uint8_t *buf) { return memcmp(buf, N, sizeof N) == 0 ? "the same bytes" : "other bytes"; }

/* the pairs' bytes go into the reserved area before the rest is written */
static void finish_n(uint8_t buf[24]) {
    uint64_t place[CFDP_ANSWER_LEN], answer[CFDP_ANSWER_LEN];
    cfdp_nak_reserve(shape, ids, 1, buf, 24, place);
    uint64_t area = place[CFDP_ANSWER_RESERVED_AREA], stop = place[CFDP_ANSWER_RESERVED_STOP];
    memcpy(buf + area, N + area, stop - area);
    cfdp_nak_finish(shape, ids, 1, 0, 1000, buf, 24, answer);
    printf("reserved %" PRIu64 " to %" PRIu64 ", finished %" PRIu64 ", %s\n", area, stop, answer[CFDP_ANSWER_WRITTEN], same(buf));
}

static uint64_t compare_n(uint64_t end) {
    uint64_t answer[CFDP_ANSWER_LEN];
    cfdp_nak_compare_normal(N, sizeof N, shape, ids, 0, end, numbers, 2, answer);
    return answer[CFDP_ANSWER_VALUE];
}

/* a stream is framed by its headers: what is refused is passed over like what is accepted */
static void cut(const uint8_t *stream, size_t length) {
    uint64_t answer[CFDP_ANSWER_LEN];
    size_t at = 0;
    for (;;) {
        cfdp_header_read(stream + at, length - at, answer);
        if (answer[CFDP_ANSWER_NUMBER] != CFDP_ACCEPTED)
            break;
        size_t pdu = answer[CFDP_ANSWER_HEADER_LENGTH] + answer[CFDP_ANSWER_DATA_LENGTH];
        if (length - at < pdu)
            break;
        cfdp_nak_read(stream + at, pdu, answer);
        printf("at %zu, %zu bytes: %" PRIu64 "\n", at, pdu, answer[CFDP_ANSWER_NUMBER]);
        at += pdu;
    }
    printf("%zu bytes wait\n", length - at);
}

/* a header with no data, N with an unknown directive, N, and five bytes of the next */
static void cut_three(void) {
    uint8_t stream[7 + 2 * sizeof N + 5] = {0x20, 0x00, 0x00, 0x00, 0x01, 0x02, 0x03};
    memcpy(stream + 7, N, sizeof N);
    stream[7 + 7] = 0x0A;
    memcpy(stream + 7 + sizeof N, N, sizeof N);
    memcpy(stream + 7 + 2 * sizeof N, N, 5);
    cut(stream, sizeof stream);
}

int main(void) {
    printf("checksum %" PRIx16 "\n", cfdp_checksum((const uint8_t *)"123456789", 9));
    list(N, sizeof N);

    uint8_t buf[24] = {0};
    uint64_t answer[CFDP_ANSWER_LEN];
    write_n(buf, sizeof buf, answer);
    printf("written %" PRIu64 ", %s\n", answer[CFDP_ANSWER_WRITTEN], same(buf));
    memset(buf, 0, sizeof buf);
    finish_n(buf);

    list(N, 20);

    uint8_t before[23];
    memset(buf, 0xA5, 23);
    memcpy(before, buf, 23);
    write_n(buf, 23, answer);
    print_refusal(answer);
    printf(", %s\n", memcmp(buf, before, 23) == 0 ? "no byte changed" : "bytes changed");

    printf("compared %" PRIu64 ", with another end %" PRIu64 "\n", compare_n(1000), compare_n(1001));
    cut_three();
    return 0;
}
