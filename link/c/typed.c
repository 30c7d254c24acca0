/* Does with cfdp_typed.h what main.c does with cfdp.h, and then what the records have beside that: each field of a header, each form of
   writing and comparing, a receiver, an EOF, an ACK, a Metadata PDU, two NAKs compared, a log, a plan, and every refusal in words. It is C99 and C++11. */
#include <inttypes.h>
#include <stdio.h>
#include <string.h>

#include "cfdp_typed.h"

static const uint8_t N[24] = {0x28, 0x00, 0x11, 0x00, 0x01, 0x02, 0x03, 0x08, 0x00, 0x00, 0x00, 0x00,
                              0x00, 0x00, 0x03, 0xE8, 0x00, 0x00, 0x00, 0x64, 0x00, 0x00, 0x00, 0xC8};
/* condition 4, file checksum 7, file size 9, fault location 5; then the ACK of an EOF, of an active transaction */
static const uint8_t EOF_PDU[20] = {0x20, 0x00, 0x0D, 0x00, 0x01, 0x02, 0x03, 0x04, 0x40, 0x00,
                                    0x00, 0x00, 0x07, 0x00, 0x00, 0x00, 0x09, 0x06, 0x01, 0x05};
static const uint8_t ACK_PDU[10] = {0x28, 0x00, 0x03, 0x00, 0x01, 0x02, 0x03, 0x06, 0x40, 0x01};

/* closure requested, checksum type 3, file size 9, from a.bin to b.bin, options of type 2 and 5 */
static const uint8_t METADATA_PDU[31] = {0x20, 0x00, 0x18, 0x00, 0x01, 0x02, 0x03, 0x07, 0x43, 0x00, 0x00, 0x00, 0x09, 0x05, 'a', '.',
                                         'b',  'i',  'n',  0x05, 'b',  '.',  'b',  'i',  'n',  0x02, 0x02, 'a',  'b',  0x05, 0x00};

static const cfdp_pair scope = {0, 1000};
static const cfdp_normal_pair pairs[1] = {{100, 200}};

static void print_refusal(cfdp_status status) {
    printf("refused %d %" PRIu64 " %" PRIu64, status.number, status.first, status.second);
}

static void list(const uint8_t *bytes, size_t length) {
    cfdp_nak nak;
    cfdp_pair pair;
    cfdp_status status = cfdp_nak_get(bytes, length, &nak);
    if (status.number != CFDP_ACCEPTED) {
        print_refusal(status);
        printf("\n");
        return;
    }
    printf("nak %" PRIu64 " %" PRIu64 " %" PRIu64 "\n", nak.header.source, nak.header.sequence, nak.header.destination);
    printf("scope %" PRIu64 " %" PRIu64 "\n", nak.scope.start, nak.scope.end);
    for (size_t i = 0; cfdp_nak_at(&nak, i, &pair); i++)
        printf("request %" PRIu64 " %" PRIu64 "\n", pair.start, pair.end);
    printf("end %zu\n", nak.data_end);
}

static const char *same(const uint8_t *one, const uint8_t *other, size_t length) {
    return memcmp(one, other, length) == 0 ? "the same bytes" : "other bytes";
}

static void write_n(const cfdp_header *header) {
    uint8_t buf[24] = {0}, before[23];
    cfdp_written written;
    cfdp_reserved reserved;

    cfdp_nak_put_normal(header, scope, pairs, 1, buf, sizeof buf, &written);
    printf("written %zu, %s\n", written.length, same(buf, N, sizeof N));

    /* the pairs' bytes go into the reserved area before the rest is written */
    memset(buf, 0, sizeof buf);
    cfdp_reserved_get(header, 1, buf, sizeof buf, &reserved);
    memcpy(buf + reserved.area, N + reserved.area, reserved.stop - reserved.area);
    cfdp_reserved_finish(&reserved, scope, buf, sizeof buf, &written);
    printf("reserved %zu to %zu, finished %zu, %s\n", reserved.area, reserved.stop, written.length, same(buf, N, sizeof N));

    list(N, 20);

    memset(buf, 0xA5, 23);
    memcpy(before, buf, 23);
    print_refusal(cfdp_nak_put_normal(header, scope, pairs, 1, buf, 23, &written));
    printf(", %s\n", memcmp(buf, before, 23) == 0 ? "no byte changed" : "bytes changed");
}

static bool compare_n(const cfdp_header *header, uint64_t end) {
    cfdp_pair until = {0, end};
    bool verdict;
    cfdp_nak_same_normal(N, sizeof N, header, until, pairs, 1, &verdict);
    return verdict;
}

/* a header with no data, N with an unknown directive, N, and five bytes of the next */
static void cut_three(void) {
    uint8_t bytes[7 + 2 * sizeof N + 5] = {0x20, 0x00, 0x00, 0x00, 0x01, 0x02, 0x03};
    memcpy(bytes + 7, N, sizeof N);
    bytes[7 + 7] = 0x0A;
    memcpy(bytes + 7 + sizeof N, N, sizeof N);
    memcpy(bytes + 7 + 2 * sizeof N, N, 5);

    cfdp_slice stream = {bytes, sizeof bytes}, pdu;
    cfdp_nak nak;
    while (cfdp_pdu_next(&stream, &pdu).number == CFDP_ACCEPTED) {
        cfdp_status status = cfdp_nak_get(pdu.bytes, pdu.length, &nak);
        printf("at %zu, %zu bytes: %d\n", (size_t)(pdu.bytes - bytes), pdu.length, status.number);
    }
    printf("%zu bytes wait\n", stream.length);
}

/* ---- from here on: typed.txt */

static void print_header(const cfdp_header *h) {
    printf("%d %d %d %d %d %d %d %d %d %" PRIu64 " %d %" PRIu64 " %" PRIu64, h->file_data, h->towards_sender, h->unacknowledged,
           h->crc, h->large, h->segmentation_control, h->segment_metadata, h->data_length, h->entity_width, h->source,
           h->sequence_width, h->sequence, h->destination);
}

static void header_there_and_back(const cfdp_header *header) {
    uint8_t buf[28];
    size_t length, pdu_length;
    cfdp_header back;
    cfdp_header_put(header, buf, sizeof buf, &length);
    printf("header");
    for (size_t i = 0; i < length; i++)
        printf(" %02x", buf[i]);
    cfdp_header_get(buf, length, &back, &pdu_length);
    printf(": ");
    print_header(&back);
    printf(", P %zu\n", pdu_length);
}

/* two headers with no flag alike */
static void headers(void) {
    cfdp_header one = cfdp_header_new(2, 513, 514, 4, 70000), other = cfdp_header_new(1, 1, 3, 1, 2);
    size_t most, data_end;
    one.file_data = one.unacknowledged = one.large = one.segment_metadata = true;
    other.towards_sender = other.crc = other.segmentation_control = true;
    one.data_length = other.data_length = 258;
    header_there_and_back(&one);
    header_there_and_back(&other);

    cfdp_nak_room(&other, 60, &most);
    printf("a packet of 60 bytes holds %zu\n", most);
    other.source = 256;
    print_refusal(cfdp_header_judge(&other));
    cfdp_header_get(N, sizeof N, &other, &most);
    cfdp_pdu_verify(&other, N, sizeof N, &data_end);
    printf("; N is verified, and ends at %zu\n", data_end);
}

/* pairs of eight bytes a number, and no list of pairs */
static void large_and_none(cfdp_header header) {
    static const cfdp_pair whole = {0, 1099511627776}, asked[2] = {{1, 2}, {3, 1099511627776}};
    uint8_t buf[56];
    cfdp_nak nak;
    cfdp_written written;
    cfdp_pair copy[3] = {{7, 7}, {7, 7}, {7, 7}};
    bool verdict;

    cfdp_nak_put_large(&header, whole, asked, 2, buf, sizeof buf, &written);
    cfdp_nak_get(buf, written.length, &nak);
    size_t copied = cfdp_nak_copy(&nak, copy, 3);
    cfdp_nak_same_large(buf, written.length, &header, whole, asked, 2, &verdict);
    printf("large %zu bytes, flag %d, %zu pairs, %zu copied, the last to %" PRIu64 ", then %" PRIu64 "; compared %d\n",
           written.length, written.header.large, nak.pairs, copied, copy[1].end, copy[2].end, verdict);

    cfdp_nak_put(&header, scope, buf, sizeof buf, &written);
    cfdp_nak_same(buf, written.length, &header, scope, &verdict);
    printf("none %zu bytes, compared %d\n", written.length, verdict);
}

static void eof_and_ack(cfdp_header header) {
    uint8_t buf[20] = {0};
    cfdp_nak nak;
    cfdp_eof eof;
    cfdp_ack ack;
    cfdp_written written;

    print_refusal(cfdp_nak_get(EOF_PDU, sizeof EOF_PDU, &nak));
    printf(" with %zu pairs\n", nak.pairs);
    cfdp_eof_get(EOF_PDU, sizeof EOF_PDU, &eof);
    printf("eof %d %" PRIu32 " %" PRIu64 " fault %d %d %" PRIu64 " end %zu next %zu\n", eof.condition, eof.file_checksum,
           eof.file_size, eof.fault, eof.fault_width, eof.fault_value, eof.data_end, eof.pdu_length);
    eof.header = header;
    cfdp_eof_put(&eof, buf, sizeof buf, &written);
    printf("written %zu, %s, towards the sender %d\n", written.length, same(buf, EOF_PDU, sizeof EOF_PDU),
           written.header.towards_sender);
    eof.condition = 12;
    print_refusal(cfdp_eof_put(&eof, buf, sizeof buf, &written));
    printf(" written %zu\n", written.length);

    cfdp_ack_get(ACK_PDU, sizeof ACK_PDU, &ack);
    printf("ack %d %d %d end %zu next %zu\n", ack.directive, ack.condition, ack.transaction_status, ack.data_end,
           ack.pdu_length);
    ack.header = header;
    ack.header.crc = true;
    cfdp_ack_put(&ack, buf, sizeof buf, &written);
    cfdp_ack_get(buf, written.length, &ack);
    printf("written %zu, checksum %02x%02x, towards the sender %d, end %zu next %zu\n", written.length, buf[10], buf[11],
           written.header.towards_sender, ack.data_end, ack.pdu_length);
}

static void print_options(cfdp_slice options) {
    size_t at = 0;
    cfdp_option option;
    while (cfdp_option_next(options, &at, &option))
        printf("option %d of %zu bytes, ", option.type, option.value.length);
    printf("walked %zu of %zu\n", at, options.length);
}

static void print_name(cfdp_slice name) { printf(" %.*s", (int)name.length, (const char *)name.bytes); }

static void metadata(cfdp_header header) {
    uint8_t buf[31] = {0};
    cfdp_metadata pdu;
    cfdp_written written;
    cfdp_metadata_get(METADATA_PDU, sizeof METADATA_PDU, &pdu);
    printf("metadata %d %d %" PRIu64, pdu.closure, pdu.checksum_type, pdu.file_size);
    print_name(pdu.source_name);
    print_name(pdu.destination_name);
    printf(" end %zu next %zu\n", pdu.data_end, pdu.pdu_length);
    print_options(pdu.options);
    pdu.header = header;
    cfdp_metadata_put(&pdu, buf, sizeof buf, &written);
    printf("written %zu, %s, towards the sender %d\n", written.length, same(buf, METADATA_PDU, sizeof buf),
           written.header.towards_sender);
    pdu.options.length = 5;
    print_options(pdu.options);
    print_refusal(cfdp_metadata_put(&pdu, buf, sizeof buf, &written));
    printf("\n");
}

/* one call, and what it gave */
static void take(cfdp_receiver *receiver, cfdp_slice *fragment) {
    size_t before = fragment->length;
    cfdp_nak nak;
    cfdp_pair pair;
    cfdp_status status = cfdp_receiver_take(receiver, fragment, &nak);
    printf("took %zu: ", before - fragment->length);
    if (status.number == CFDP_ACCEPTED && cfdp_nak_at(&nak, 0, &pair))
        printf("nak %" PRIu64 " %" PRIu64, pair.start, pair.end);
    else if (status.number == CFDP_RECEIVE_MORE)
        printf("more");
    else
        print_refusal(status);
    printf("\n");
}

/* N in two pieces, N behind it, and five bytes of the next; then a version of 2, twice, and N after a reset */
static void receive(void) {
    uint8_t bytes[2 * sizeof N + 5];
    cfdp_receiver receiver;
    memcpy(bytes, N, sizeof N);
    memcpy(bytes + sizeof N, N, sizeof N);
    memcpy(bytes + 2 * sizeof N, N, 5);
    cfdp_slice one = {bytes, 20}, other = {bytes + 20, sizeof bytes - 20}, again = {bytes, sizeof N};
    cfdp_receiver_reset(&receiver);
    take(&receiver, &one);
    while (other.length > 0)
        take(&receiver, &other);
    printf("%zu bytes in the window\n", receiver.filled);

    bytes[0] = 0x48;
    cfdp_receiver_reset(&receiver);
    take(&receiver, &again);
    take(&receiver, &again);
    bytes[0] = 0x28;
    again.bytes = bytes;
    again.length = sizeof N;
    cfdp_receiver_reset(&receiver);
    take(&receiver, &again);
}

/* N beside a NAK that asks for metadata and for 150 to 300 */
static void differ(const cfdp_header *header) {
    static const cfdp_normal_pair asked[2] = {{0, 0}, {150, 300}};
    uint8_t buf[32];
    cfdp_written written;
    cfdp_only only[3];
    cfdp_difference difference;
    cfdp_nak_put_normal(header, scope, asked, 2, buf, sizeof buf, &written);
    cfdp_slice first = {N, sizeof N}, second = {buf, written.length};
    cfdp_differ_get(first, second, only, 3, &difference);
    for (size_t i = 0; i < difference.ranges; i++)
        printf("only %" PRIu64 " %" PRIu64 " %" PRIu64 ", ", only[i].side, only[i].start, only[i].end);
    printf("metadata %d %d\n", difference.metadata[0], difference.metadata[1]);
}

/* N was heard, 120 to 150 was resent, and then an entry of no known tag */
static void owe(void) {
    static const uint8_t behind[19 + 3] = {0x02, 0x00, 0x10, 0, 0, 0, 0, 0, 0, 0, 120, 0, 0, 0, 0, 0, 0, 0, 150, 0x03, 0x00, 0x00};
    uint8_t bytes[3 + sizeof N + sizeof behind] = {0x01, 0x00, 0x18};
    cfdp_slice log = {bytes, sizeof bytes};
    cfdp_owed owed;
    cfdp_pair range;
    cfdp_status status;
    size_t at = 0;
    memcpy(bytes + 3, N, sizeof N);
    memcpy(bytes + 3 + sizeof N, behind, sizeof behind);
    cfdp_owed_reset(&owed);
    while ((status = cfdp_owed_take(&owed, log, &at)).number == CFDP_ACCEPTED) {
        for (size_t i = 0; cfdp_owed_at(&owed, i, &range); i++)
            printf("owed %" PRIu64 " %" PRIu64 ", ", range.start, range.end);
        printf("at %zu\n", at);
    }
    print_refusal(status);
    at = 0;
    cfdp_owed_reset(&owed);
    status = cfdp_owed_take_all(&owed, log, &at);
    printf("; all at once %d at %zu\n", status.number, at);
}

/* of 0 to 1000 there is 0 to 100 and 200 to 500, and a packet holds one request */
static void plan(cfdp_header header) {
    static const cfdp_pair received[2] = {{0, 100}, {200, 500}};
    cfdp_missing missing = {header, 24, scope, received, 2};
    cfdp_pair requests[4];
    cfdp_planned_nak naks[4];
    cfdp_planned planned;
    bool accepted, shorter;
    cfdp_plan_get(&missing, requests, 4, naks, 4, &planned);
    for (size_t i = 0; i < planned.naks; i++)
        printf("nak %" PRIu64 " %" PRIu64 " with %" PRIu64 ", ", naks[i].scope.start, naks[i].scope.end, naks[i].requests);
    cfdp_plan_accepts(&missing, requests, planned.requests, naks, planned.naks, &accepted);
    cfdp_plan_accepts(&missing, requests, planned.requests - 1, naks, planned.naks - 1, &shorter);
    printf("of %zu requests: accepted %d, without the last %d\n", planned.requests, accepted, shorter);
}

int main(void) {
    cfdp_header header = cfdp_header_new(1, 1, 3, 1, 2);
    printf("checksum %" PRIx16 "\n", cfdp_checksum((const uint8_t *)"123456789", 9));
    list(N, sizeof N);
    write_n(&header);
    printf("compared %d, with another end %d\n", compare_n(&header, 1000), compare_n(&header, 1001));
    cut_three();

    headers();
    large_and_none(header);
    receive();
    eof_and_ack(header);
    metadata(header);
    differ(&header);
    owe();
    plan(header);
    for (int number = 0; number <= 33; number++)
        printf("%d %s\n", number, cfdp_refusal_text(number));
    return 0;
}
