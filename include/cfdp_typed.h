/* Records, a status and short calls over cfdp.h, for C99 and C++11: all of it static inline, and nothing of it decides. Numbers are
   carried to the places that cfdp.h names and from them, and what a function answers is what the proved function that it calls answers.

   A call that can be refused gives a cfdp_status. What it hands out besides is written by every call: what was accepted, or after a
   refusal zeros, and an area with no pair. What cfdp.h says of memory and threads holds here too: no pointer is null.

     cfdp_nak nak;
     cfdp_pair pair;
     cfdp_status status = cfdp_nak_get(bytes, length, &nak);
     if (status.number != CFDP_ACCEPTED)
         fprintf(stderr, "refused %d: %s\n", status.number, cfdp_refusal_text(status.number));
     for (size_t i = 0; cfdp_nak_at(&nak, i, &pair); i++)
         resend(pair.start, pair.end);

   A PDU of another directive is refused with CFDP_REFUSED_OTHER_DIRECTIVE, and status.first is its code: which reader to ask next. */
#ifndef CFDP_TYPED_H
#define CFDP_TYPED_H

#include <string.h>

#include "cfdp.h"

/* ---- records */

/* The refusal's number, or CFDP_ACCEPTED, and the values that cfdp.h lists beside it; a value that it does not have is 0. */
typedef struct cfdp_status {
    int number;
    uint64_t first, second;
} cfdp_status;

/* So many bytes, which somebody else keeps. */
typedef struct cfdp_slice {
    const uint8_t *bytes;
    size_t length;
} cfdp_slice;

/* First byte, and first byte behind: a scope, or a request of a NAK; in cfdp_normal_pair a request of four bytes a number. */
typedef struct cfdp_pair {
    uint64_t start, end;
} cfdp_pair;
typedef struct cfdp_normal_pair {
    uint32_t start, end;
} cfdp_normal_pair;

/* A header. It has one width for both entities, so that CFDP_REFUSED_WIDTHS_DIFFER cannot be. */
typedef struct cfdp_header {
    bool file_data;            /* a directive where it is false */
    bool towards_sender;       /* towards the file's receiver where it is false; worked out for a PDU that is written */
    bool unacknowledged;       /* acknowledged mode where it is false */
    bool crc;                  /* the PDU ends in a checksum */
    bool large;                /* offsets and sizes have 8 bytes; 4 where it is false */
    bool segmentation_control; /* record boundaries are kept */
    bool segment_metadata;     /* segments have metadata */
    uint8_t entity_width;      /* 1, 2, 4 or 8 bytes, of source and destination */
    uint8_t sequence_width;    /* likewise, of the sequence number */
    uint16_t data_length;      /* worked out for a PDU that is written */
    uint64_t source, sequence, destination;
} cfdp_header;

/* What was written: the header as it stands in the PDU, and how many bytes. */
typedef struct cfdp_written {
    cfdp_header header;
    size_t length;
} cfdp_written;

/* A NAK that was read. */
typedef struct cfdp_nak {
    cfdp_header header;
    cfdp_pair scope;
    cfdp_slice area;   /* the bytes of its requests, where they were read */
    size_t pairs;      /* so many whole ones */
    size_t data_end;   /* E, where the data stops */
    size_t pdu_length; /* P, where the next PDU starts */
} cfdp_nak;

/* Room for the pairs of a NAK: their bytes go from buf + area up to buf + stop. */
typedef struct cfdp_reserved {
    cfdp_header header;
    size_t pairs, area, stop;
    size_t pdu_length; /* that the NAK will have */
} cfdp_reserved;

/* A receiver of NAKs that are laid end to end in a stream; fresh it is all zeros. */
typedef struct cfdp_receiver {
    uint8_t window[CFDP_WINDOW_LEN];
    size_t filled; /* bytes of the next PDU in the window */
} cfdp_receiver;

/* An EOF that was read or is to be written; the last two are not looked at when it is written. */
typedef struct cfdp_eof {
    cfdp_header header;
    uint8_t condition;
    uint32_t file_checksum;
    uint64_t file_size;
    bool fault; /* whether there is a fault location: an entity of that width and value */
    uint8_t fault_width;
    uint64_t fault_value;
    size_t data_end, pdu_length;
} cfdp_eof;

/* An ACK, likewise. */
typedef struct cfdp_ack {
    cfdp_header header;
    uint8_t directive; /* that it acknowledges: 4 EOF, 5 Finished */
    uint8_t condition;
    uint8_t transaction_status; /* 0 undefined, 1 active, 2 terminated, 3 unrecognized */
    size_t data_end, pdu_length;
} cfdp_ack;

/* A Metadata PDU, likewise. Names and options are bytes that somebody else keeps: those that were read, or those to be written. */
typedef struct cfdp_metadata {
    cfdp_header header;
    bool closure;          /* whether the sender asks for a Finished PDU */
    uint8_t checksum_type; /* 0, 1, 2, 3 or 15 */
    uint64_t file_size;
    cfdp_slice source_name, destination_name;
    cfdp_slice options; /* type, length and value of each */
    size_t data_end, pdu_length;
} cfdp_metadata;

/* An option of a Metadata PDU. */
typedef struct cfdp_option {
    uint8_t type;
    cfdp_slice value;
} cfdp_option;

/* A range that only one of two NAKs asks for, and whose it is: 1 or 2. */
typedef struct cfdp_only {
    uint64_t start, end, side;
} cfdp_only;

/* What a comparison found beside the ranges: which of the NAKs ask for metadata, and how many ranges were stored. */
typedef struct cfdp_difference {
    bool metadata[2];
    size_t ranges;
} cfdp_difference;

/* What is owed after a log so far; before its first entry it is all zeros. */
typedef struct cfdp_owed {
    uint64_t state[CFDP_OWED_LEN];
} cfdp_owed;

/* What is to be planned for: the header of the NAKs, how many bytes one has at most, the whole scope, and what of it is there, in ranges that
   rise and stay apart. */
typedef struct cfdp_missing {
    cfdp_header header;
    size_t packet;
    cfdp_pair scope;
    const cfdp_pair *received;
    size_t received_count;
} cfdp_missing;

/* A NAK of a plan: its scope, and how many of the plan's requests are its own, in their order. */
typedef struct cfdp_planned_nak {
    cfdp_pair scope;
    uint64_t requests;
} cfdp_planned_nak;

/* How many of a plan were stored. */
typedef struct cfdp_planned {
    size_t requests, naks;
} cfdp_planned;

/* ---- a refusal in words */

/* What a refusal's number says, by the list of cfdp.h; the text stays where it is. */
static inline const char *cfdp_refusal_text(int number) {
    static const char *const text[] = {
        "accepted",
        "buffer short",
        "version is not 1",
        "entity width is not 1, 2, 4 or 8",
        "sequence number width is not 1, 2, 4 or 8",
        "checksum is not zero",
        "declared data short",
        "unknown directive",
        "another directive than the one that is read",
        "scope above 4294967295 in a normal NAK",
        "more pairs than fit",
        "output buffer short",
        "odd count of numbers, which are no pairs",
        "source and destination widths differ",
        "value does not fit its width",
        "packet too small for a NAK",
        "condition code is reserved",
        "acknowledged directive is neither EOF nor Finished",
        "pair or range out of order",
        "NAKs of different transactions",
        "no room in the lent numbers",
        "file data, not a directive",
        "PDU longer than the receiver's window",
        "ranges or scope out of order, or no state of a log",
        "a byte is missing and no request fits the packet",
        "name or option runs past its end",
        "log entry cut, of an unknown tag or of a wrong length",
        "more ranges owed than are kept",
        "fault location is not one entity identifier",
        "file size above 4294967295 without the large file flag",
        "checksum type is not 0, 1, 2, 3 or 15",
        "name longer than 255 bytes",
        "data field longer than 65535 bytes",
    };
    return number >= 0 && (size_t)number < sizeof text / sizeof text[0] ? text[number] : "no such refusal";
}

/* ---- between records and numbers: what the functions below are made of */

/* The status of an answer. Of a refused one the values are cleared, so that all that follows the number is 0. */
static inline cfdp_status cfdp_status_of(uint64_t answer[CFDP_ANSWER_LEN]) {
    cfdp_status status = {(int)answer[CFDP_ANSWER_NUMBER], 0, 0};
    if (status.number != CFDP_ACCEPTED) {
        status.first = answer[CFDP_ANSWER_FIRST];
        status.second = answer[CFDP_ANSWER_SECOND];
        answer[CFDP_ANSWER_FIRST] = answer[CFDP_ANSWER_SECOND] = 0;
    }
    return status;
}

static inline cfdp_header cfdp_header_of(const uint64_t answer[CFDP_ANSWER_LEN]) {
    cfdp_header header = {answer[CFDP_ANSWER_TYPE] != 0,
                          answer[CFDP_ANSWER_DIRECTION] != 0,
                          answer[CFDP_ANSWER_MODE] != 0,
                          answer[CFDP_ANSWER_CRC] != 0,
                          answer[CFDP_ANSWER_LARGE] != 0,
                          answer[CFDP_ANSWER_CONTROL] != 0,
                          answer[CFDP_ANSWER_METADATA] != 0,
                          (uint8_t)answer[CFDP_ANSWER_SOURCE_WIDTH],
                          (uint8_t)answer[CFDP_ANSWER_SEQUENCE_WIDTH],
                          (uint16_t)answer[CFDP_ANSWER_DATA_LENGTH],
                          answer[CFDP_ANSWER_SOURCE],
                          answer[CFDP_ANSWER_SEQUENCE],
                          answer[CFDP_ANSWER_DESTINATION]};
    return header;
}

/* What the functions of cfdp.h take of a header. */
typedef struct cfdp_numbers {
    uint8_t shape[CFDP_SHAPE_LEN];
    uint64_t ids[CFDP_IDS_LEN];
} cfdp_numbers;

static inline cfdp_numbers cfdp_numbers_of(const cfdp_header *header) {
    cfdp_numbers numbers;
    numbers.shape[CFDP_SHAPE_TYPE] = header->file_data;
    numbers.shape[CFDP_SHAPE_DIRECTION] = header->towards_sender;
    numbers.shape[CFDP_SHAPE_MODE] = header->unacknowledged;
    numbers.shape[CFDP_SHAPE_CRC] = header->crc;
    numbers.shape[CFDP_SHAPE_LARGE] = header->large;
    numbers.shape[CFDP_SHAPE_CONTROL] = header->segmentation_control;
    numbers.shape[CFDP_SHAPE_METADATA] = header->segment_metadata;
    numbers.shape[CFDP_SHAPE_SOURCE_WIDTH] = header->entity_width;
    numbers.shape[CFDP_SHAPE_SEQUENCE_WIDTH] = header->sequence_width;
    numbers.shape[CFDP_SHAPE_DESTINATION_WIDTH] = header->entity_width;
    numbers.ids[CFDP_ID_SOURCE] = header->source;
    numbers.ids[CFDP_ID_SEQUENCE] = header->sequence;
    numbers.ids[CFDP_ID_DESTINATION] = header->destination;
    return numbers;
}

/* P of a PDU whose data stops at E: the checksum stands between. */
static inline size_t cfdp_behind(const cfdp_header *header, size_t data_end) { return data_end + (header->crc ? 2u : 0u); }

/* The bytes from one place of an answer up to another. */
static inline cfdp_slice cfdp_part(const uint8_t *bytes, uint64_t start, uint64_t stop) {
    cfdp_slice part = {bytes + start, (size_t)(stop - start)};
    return part;
}

/* HEADER and the written length. */
static inline cfdp_status cfdp_written_of(uint64_t answer[CFDP_ANSWER_LEN], cfdp_written *written) {
    cfdp_status status = cfdp_status_of(answer);
    written->header = cfdp_header_of(answer);
    written->length = (size_t)answer[CFDP_ANSWER_WRITTEN];
    return status;
}

/* VALUE. */
static inline cfdp_status cfdp_value_of(uint64_t answer[CFDP_ANSWER_LEN], size_t *value) {
    cfdp_status status = cfdp_status_of(answer);
    *value = (size_t)answer[CFDP_ANSWER_VALUE];
    return status;
}

/* VALUE, which is 1 or 0. */
static inline cfdp_status cfdp_verdict_of(uint64_t answer[CFDP_ANSWER_LEN], bool *verdict) {
    cfdp_status status = cfdp_status_of(answer);
    *verdict = answer[CFDP_ANSWER_VALUE] != 0;
    return status;
}

/* ---- the header, and a stream cut into its PDUs */

/* A header with all flags clear. */
static inline cfdp_header cfdp_header_new(uint8_t entity_width, uint64_t source, uint64_t destination, uint8_t sequence_width,
                                          uint64_t sequence) {
    cfdp_header header = {false, false, false, false, false, false, false, entity_width, sequence_width, 0,
                          source, sequence, destination};
    return header;
}

/* cfdp_header_read: the header, and the length of its PDU, P. */
static inline cfdp_status cfdp_header_get(const uint8_t *bytes, size_t length, cfdp_header *header, size_t *pdu_length) {
    uint64_t answer[CFDP_ANSWER_LEN];
    cfdp_header_read(bytes, length, answer);
    cfdp_status status = cfdp_status_of(answer);
    *header = cfdp_header_of(answer);
    *pdu_length = (size_t)(answer[CFDP_ANSWER_HEADER_LENGTH] + answer[CFDP_ANSWER_DATA_LENGTH]);
    return status;
}

/* The next PDU of a stream, by P alone: accepted, it is cut off the stream's front, whatever its reader will say of it. Refused with
   CFDP_REFUSED_BUFFER_SHORT, it is not all there, and status.second bytes are needed; refused otherwise, where it ends cannot be known.
   A refusal leaves the stream as it was. */
static inline cfdp_status cfdp_pdu_next(cfdp_slice *stream, cfdp_slice *pdu) {
    cfdp_header header;
    size_t pdu_length;
    cfdp_status status = cfdp_header_get(stream->bytes, stream->length, &header, &pdu_length);
    if (status.number == CFDP_ACCEPTED && stream->length < pdu_length) {
        status.number = CFDP_REFUSED_BUFFER_SHORT;
        status.first = stream->length;
        status.second = pdu_length;
        pdu_length = 0;
    }
    pdu->bytes = stream->bytes;
    pdu->length = pdu_length;
    stream->bytes += pdu_length;
    stream->length -= pdu_length;
    return status;
}

/* cfdp_header_build: whether there is such a header. */
static inline cfdp_status cfdp_header_judge(const cfdp_header *header) {
    const cfdp_numbers numbers = cfdp_numbers_of(header);
    uint64_t answer[CFDP_ANSWER_LEN];
    cfdp_header_build(numbers.shape, header->data_length, numbers.ids, answer);
    return cfdp_status_of(answer);
}

/* cfdp_header_write: the header with its own data_length; how many bytes. */
static inline cfdp_status cfdp_header_put(const cfdp_header *header, uint8_t *buf, size_t buf_len, size_t *length) {
    const cfdp_numbers numbers = cfdp_numbers_of(header);
    uint64_t answer[CFDP_ANSWER_LEN];
    cfdp_header_write(numbers.shape, header->data_length, numbers.ids, buf, buf_len, answer);
    return cfdp_value_of(answer, length);
}

/* cfdp_header_verify: whether the header's whole PDU is there, and its checksum right; where its data stops. */
static inline cfdp_status cfdp_pdu_verify(const cfdp_header *header, const uint8_t *bytes, size_t length, size_t *data_end) {
    const cfdp_numbers numbers = cfdp_numbers_of(header);
    uint64_t answer[CFDP_ANSWER_LEN];
    cfdp_header_verify(numbers.shape, header->data_length, numbers.ids, bytes, length, answer);
    return cfdp_value_of(answer, data_end);
}

/* ---- NAK */

/* A NAK that stands in these bytes. */
static inline cfdp_status cfdp_nak_of(uint64_t answer[CFDP_ANSWER_LEN], const uint8_t *bytes, cfdp_nak *nak) {
    cfdp_status status = cfdp_status_of(answer);
    nak->header = cfdp_header_of(answer);
    nak->scope.start = answer[CFDP_ANSWER_NAK_START];
    nak->scope.end = answer[CFDP_ANSWER_NAK_END];
    nak->area = cfdp_part(bytes, answer[CFDP_ANSWER_NAK_AREA], answer[CFDP_ANSWER_NAK_STOP]);
    nak->pairs = (size_t)answer[CFDP_ANSWER_NAK_PAIRS];
    nak->data_end = (size_t)answer[CFDP_ANSWER_NAK_STOP];
    nak->pdu_length = cfdp_behind(&nak->header, nak->data_end);
    return status;
}

/* cfdp_nak_read */
static inline cfdp_status cfdp_nak_get(const uint8_t *bytes, size_t length, cfdp_nak *nak) {
    uint64_t answer[CFDP_ANSWER_LEN];
    cfdp_nak_read(bytes, length, answer);
    return cfdp_nak_of(answer, bytes, nak);
}

/* cfdp_nak_pair: the pair of an index, from 0; false and zeros where there is none. */
static inline bool cfdp_nak_at(const cfdp_nak *nak, size_t index, cfdp_pair *pair) {
    uint64_t numbers[2];
    bool there = cfdp_nak_pair(nak->area.bytes, nak->area.length, nak->header.large, index, numbers);
    pair->start = numbers[0];
    pair->end = numbers[1];
    return there;
}

/* cfdp_nak_pairs: copies the pairs, as many as there is room for; how many. */
static inline size_t cfdp_nak_copy(const cfdp_nak *nak, cfdp_pair *pairs, size_t room) {
    return cfdp_nak_pairs(nak->area.bytes, nak->area.length, nak->header.large, &pairs->start, 2 * room);
}

/* cfdp_nak_write: a NAK with no list of pairs. */
static inline cfdp_status cfdp_nak_put(const cfdp_header *header, cfdp_pair scope, uint8_t *buf, size_t buf_len,
                                       cfdp_written *written) {
    const cfdp_numbers numbers = cfdp_numbers_of(header);
    uint64_t answer[CFDP_ANSWER_LEN];
    cfdp_nak_write(numbers.shape, numbers.ids, scope.start, scope.end, buf, buf_len, answer);
    return cfdp_written_of(answer, written);
}

/* cfdp_nak_write_normal: so many pairs of four bytes a number. Pairs are counted, so that CFDP_REFUSED_ODD_COUNT cannot be. */
static inline cfdp_status cfdp_nak_put_normal(const cfdp_header *header, cfdp_pair scope, const cfdp_normal_pair *pairs,
                                              size_t count, uint8_t *buf, size_t buf_len, cfdp_written *written) {
    const cfdp_numbers numbers = cfdp_numbers_of(header);
    uint64_t answer[CFDP_ANSWER_LEN];
    cfdp_nak_write_normal(numbers.shape, numbers.ids, scope.start, scope.end, &pairs->start, 2 * count, buf, buf_len, answer);
    return cfdp_written_of(answer, written);
}

/* cfdp_nak_write_large: so many pairs of eight bytes a number. */
static inline cfdp_status cfdp_nak_put_large(const cfdp_header *header, cfdp_pair scope, const cfdp_pair *pairs, size_t count,
                                             uint8_t *buf, size_t buf_len, cfdp_written *written) {
    const cfdp_numbers numbers = cfdp_numbers_of(header);
    uint64_t answer[CFDP_ANSWER_LEN];
    cfdp_nak_write_large(numbers.shape, numbers.ids, scope.start, scope.end, &pairs->start, 2 * count, buf, buf_len, answer);
    return cfdp_written_of(answer, written);
}

/* cfdp_nak_reserve: room for so many pairs. */
static inline cfdp_status cfdp_reserved_get(const cfdp_header *header, size_t pairs, const uint8_t *buf, size_t buf_len,
                                            cfdp_reserved *reserved) {
    const cfdp_numbers numbers = cfdp_numbers_of(header);
    uint64_t answer[CFDP_ANSWER_LEN];
    cfdp_nak_reserve(numbers.shape, numbers.ids, pairs, buf, buf_len, answer);
    cfdp_status status = cfdp_status_of(answer);
    reserved->header = cfdp_header_of(answer);
    reserved->pairs = (size_t)answer[CFDP_ANSWER_RESERVED_PAIRS];
    reserved->area = (size_t)answer[CFDP_ANSWER_RESERVED_AREA];
    reserved->stop = (size_t)answer[CFDP_ANSWER_RESERVED_STOP];
    reserved->pdu_length = (size_t)answer[CFDP_ANSWER_RESERVED_LENGTH];
    return status;
}

/* cfdp_nak_finish: the NAK around the pairs that stand in the reserved room by now. */
static inline cfdp_status cfdp_reserved_finish(const cfdp_reserved *reserved, cfdp_pair scope, uint8_t *buf, size_t buf_len,
                                               cfdp_written *written) {
    const cfdp_numbers numbers = cfdp_numbers_of(&reserved->header);
    uint64_t answer[CFDP_ANSWER_LEN];
    cfdp_nak_finish(numbers.shape, numbers.ids, reserved->pairs, scope.start, scope.end, buf, buf_len, answer);
    return cfdp_written_of(answer, written);
}

/* cfdp_nak_most: how many pairs a packet of so many bytes holds. */
static inline cfdp_status cfdp_nak_room(const cfdp_header *header, size_t packet, size_t *pairs) {
    const cfdp_numbers numbers = cfdp_numbers_of(header);
    uint64_t answer[CFDP_ANSWER_LEN];
    cfdp_nak_most(numbers.shape, numbers.ids, packet, answer);
    return cfdp_value_of(answer, pairs);
}

/* cfdp_nak_compare: whether the bytes are the NAK that cfdp_nak_put would write. */
static inline cfdp_status cfdp_nak_same(const uint8_t *bytes, size_t length, const cfdp_header *header, cfdp_pair scope,
                                        bool *same) {
    const cfdp_numbers numbers = cfdp_numbers_of(header);
    uint64_t answer[CFDP_ANSWER_LEN];
    cfdp_nak_compare(bytes, length, numbers.shape, numbers.ids, scope.start, scope.end, answer);
    return cfdp_verdict_of(answer, same);
}

/* cfdp_nak_compare_normal: that cfdp_nak_put_normal would. */
static inline cfdp_status cfdp_nak_same_normal(const uint8_t *bytes, size_t length, const cfdp_header *header, cfdp_pair scope,
                                               const cfdp_normal_pair *pairs, size_t count, bool *same) {
    const cfdp_numbers numbers = cfdp_numbers_of(header);
    uint64_t answer[CFDP_ANSWER_LEN];
    cfdp_nak_compare_normal(bytes, length, numbers.shape, numbers.ids, scope.start, scope.end, &pairs->start, 2 * count, answer);
    return cfdp_verdict_of(answer, same);
}

/* cfdp_nak_compare_large: that cfdp_nak_put_large would. */
static inline cfdp_status cfdp_nak_same_large(const uint8_t *bytes, size_t length, const cfdp_header *header, cfdp_pair scope,
                                              const cfdp_pair *pairs, size_t count, bool *same) {
    const cfdp_numbers numbers = cfdp_numbers_of(header);
    uint64_t answer[CFDP_ANSWER_LEN];
    cfdp_nak_compare_large(bytes, length, numbers.shape, numbers.ids, scope.start, scope.end, &pairs->start, 2 * count, answer);
    return cfdp_verdict_of(answer, same);
}

/* ---- NAKs from fragments of a stream

     cfdp_receiver_reset(&receiver);
     ..
     while (fragment.length > 0) {
         cfdp_status status = cfdp_receiver_take(&receiver, &fragment, &nak);
         if (status.number == CFDP_ACCEPTED)
             .. a NAK
         else if (status.number != CFDP_RECEIVE_MORE)
             .. refused
     } */

/* The fresh state, which a receiver starts from. */
static inline void cfdp_receiver_reset(cfdp_receiver *receiver) {
    memset(receiver->window, 0, sizeof receiver->window);
    receiver->filled = 0;
}

/* cfdp_receive: takes bytes off the fragment's front, up to the byte that completes a NAK. Accepted, the NAK stands in the receiver's
   window until the next call; CFDP_RECEIVE_MORE, the fragment is used up. A refusal stays until the receiver is reset. */
static inline cfdp_status cfdp_receiver_take(cfdp_receiver *receiver, cfdp_slice *fragment, cfdp_nak *nak) {
    uint64_t answer[CFDP_ANSWER_LEN];
    size_t taken = cfdp_receive(receiver->window, &receiver->filled, fragment->bytes, fragment->length, answer);
    fragment->bytes += taken;
    fragment->length -= taken;
    return cfdp_nak_of(answer, receiver->window, nak);
}

/* ---- EOF */

/* cfdp_eof_read */
static inline cfdp_status cfdp_eof_get(const uint8_t *bytes, size_t length, cfdp_eof *eof) {
    uint64_t answer[CFDP_ANSWER_LEN];
    cfdp_eof_read(bytes, length, answer);
    cfdp_status status = cfdp_status_of(answer);
    eof->header = cfdp_header_of(answer);
    eof->condition = (uint8_t)answer[CFDP_ANSWER_EOF_CONDITION];
    eof->file_checksum = (uint32_t)answer[CFDP_ANSWER_EOF_FILE_CHECKSUM];
    eof->file_size = answer[CFDP_ANSWER_EOF_FILE_SIZE];
    eof->fault = answer[CFDP_ANSWER_EOF_FAULT] != 0;
    eof->fault_width = (uint8_t)answer[CFDP_ANSWER_EOF_FAULT_WIDTH];
    eof->fault_value = answer[CFDP_ANSWER_EOF_FAULT_VALUE];
    eof->data_end = (size_t)answer[CFDP_ANSWER_EOF_STOP];
    eof->pdu_length = cfdp_behind(&eof->header, eof->data_end);
    return status;
}

/* cfdp_eof_write */
static inline cfdp_status cfdp_eof_put(const cfdp_eof *eof, uint8_t *buf, size_t buf_len, cfdp_written *written) {
    const cfdp_numbers numbers = cfdp_numbers_of(&eof->header);
    uint64_t answer[CFDP_ANSWER_LEN];
    cfdp_eof_write(numbers.shape, numbers.ids, eof->condition, eof->file_checksum, eof->file_size, eof->fault, eof->fault_width,
                   eof->fault_value, buf, buf_len, answer);
    return cfdp_written_of(answer, written);
}

/* ---- ACK */

/* cfdp_ack_read */
static inline cfdp_status cfdp_ack_get(const uint8_t *bytes, size_t length, cfdp_ack *ack) {
    uint64_t answer[CFDP_ANSWER_LEN];
    cfdp_ack_read(bytes, length, answer);
    cfdp_status status = cfdp_status_of(answer);
    ack->header = cfdp_header_of(answer);
    ack->directive = (uint8_t)answer[CFDP_ANSWER_ACK_DIRECTIVE];
    ack->condition = (uint8_t)answer[CFDP_ANSWER_ACK_CONDITION];
    ack->transaction_status = (uint8_t)answer[CFDP_ANSWER_ACK_STATUS];
    ack->data_end = (size_t)answer[CFDP_ANSWER_ACK_STOP];
    ack->pdu_length = cfdp_behind(&ack->header, ack->data_end);
    return status;
}

/* cfdp_ack_write */
static inline cfdp_status cfdp_ack_put(const cfdp_ack *ack, uint8_t *buf, size_t buf_len, cfdp_written *written) {
    const cfdp_numbers numbers = cfdp_numbers_of(&ack->header);
    uint64_t answer[CFDP_ANSWER_LEN];
    cfdp_ack_write(numbers.shape, numbers.ids, ack->directive, ack->condition, ack->transaction_status, buf, buf_len, answer);
    return cfdp_written_of(answer, written);
}

/* ---- Metadata */

/* cfdp_metadata_read */
static inline cfdp_status cfdp_metadata_get(const uint8_t *bytes, size_t length, cfdp_metadata *metadata) {
    uint64_t answer[CFDP_ANSWER_LEN];
    cfdp_metadata_read(bytes, length, answer);
    cfdp_status status = cfdp_status_of(answer);
    metadata->header = cfdp_header_of(answer);
    metadata->closure = answer[CFDP_ANSWER_METADATA_CLOSURE] != 0;
    metadata->checksum_type = (uint8_t)answer[CFDP_ANSWER_METADATA_CHECKSUM_TYPE];
    metadata->file_size = answer[CFDP_ANSWER_METADATA_FILE_SIZE];
    metadata->source_name = cfdp_part(bytes, answer[CFDP_ANSWER_METADATA_SOURCE], answer[CFDP_ANSWER_METADATA_SOURCE_STOP]);
    metadata->destination_name =
        cfdp_part(bytes, answer[CFDP_ANSWER_METADATA_DESTINATION], answer[CFDP_ANSWER_METADATA_DESTINATION_STOP]);
    metadata->options = cfdp_part(bytes, answer[CFDP_ANSWER_METADATA_OPTIONS], answer[CFDP_ANSWER_METADATA_STOP]);
    metadata->data_end = (size_t)answer[CFDP_ANSWER_METADATA_STOP];
    metadata->pdu_length = cfdp_behind(&metadata->header, metadata->data_end);
    return status;
}

/* cfdp_metadata_option: the option at that place of the options, which then is the next one's. False where there is none: the place is
   then the options' length at their end, and less where an option runs past it, which it does in no PDU that was read.

     for (size_t at = 0; cfdp_option_next(metadata.options, &at, &option);)
         .. */
static inline bool cfdp_option_next(cfdp_slice options, size_t *at, cfdp_option *option) {
    uint64_t answer[CFDP_ANSWER_LEN];
    cfdp_metadata_option(options.bytes, options.length, *at, answer);
    cfdp_status_of(answer);
    option->type = (uint8_t)answer[CFDP_ANSWER_OPTION_TYPE];
    option->value = cfdp_part(options.bytes, answer[CFDP_ANSWER_OPTION_START], answer[CFDP_ANSWER_OPTION_STOP]);
    if (answer[CFDP_ANSWER_OPTION_NEXT] == 0)
        return false;
    *at = (size_t)answer[CFDP_ANSWER_OPTION_NEXT];
    return true;
}

/* cfdp_metadata_write */
static inline cfdp_status cfdp_metadata_put(const cfdp_metadata *metadata, uint8_t *buf, size_t buf_len, cfdp_written *written) {
    const cfdp_numbers numbers = cfdp_numbers_of(&metadata->header);
    uint64_t answer[CFDP_ANSWER_LEN];
    cfdp_metadata_write(numbers.shape, numbers.ids, metadata->closure, metadata->checksum_type, metadata->file_size,
                        metadata->source_name.bytes, metadata->source_name.length, metadata->destination_name.bytes,
                        metadata->destination_name.length, metadata->options.bytes, metadata->options.length, buf, buf_len,
                        answer);
    return cfdp_written_of(answer, written);
}

/* ---- two NAKs compared, and a log run */

/* cfdp_differ: what only one of the NAKs asks for; as many ranges as both have requests are room enough. */
static inline cfdp_status cfdp_differ_get(cfdp_slice first, cfdp_slice second, cfdp_only *ranges, size_t room,
                                          cfdp_difference *difference) {
    uint64_t answer[CFDP_ANSWER_LEN];
    cfdp_differ(first.bytes, first.length, second.bytes, second.length, &ranges->start, 3 * room, answer);
    cfdp_status status = cfdp_status_of(answer);
    difference->metadata[0] = answer[CFDP_ANSWER_DIFFER_METADATA_1] != 0;
    difference->metadata[1] = answer[CFDP_ANSWER_DIFFER_METADATA_2] != 0;
    difference->ranges = (size_t)answer[CFDP_ANSWER_DIFFER_RANGES];
    return status;
}

/* The state before the first entry of a log. */
static inline void cfdp_owed_reset(cfdp_owed *owed) { memset(owed->state, 0, sizeof owed->state); }

/* cfdp_owed_entry: takes the entry at that offset of the log, which lies in it; accepted, the offset is then the next entry's. */
static inline cfdp_status cfdp_owed_take(cfdp_owed *owed, cfdp_slice log, size_t *at) {
    uint64_t answer[CFDP_ANSWER_LEN];
    size_t length;
    cfdp_owed_entry(log.bytes + *at, log.length - *at, *at, owed->state, answer);
    cfdp_status status = cfdp_value_of(answer, &length);
    *at += length;
    return status;
}

/* cfdp_owed_run: takes the entries from that offset on, which then is the log's end, or the entry's that was refused. */
static inline cfdp_status cfdp_owed_take_all(cfdp_owed *owed, cfdp_slice log, size_t *at) {
    uint64_t answer[CFDP_ANSWER_LEN];
    cfdp_owed_run(log.bytes, log.length, *at, owed->state, answer);
    *at = (size_t)answer[CFDP_ANSWER_OWED_AT];
    return cfdp_status_of(answer);
}

/* The range of an index, from 0, of those that are owed; false and zeros where there is none. */
static inline bool cfdp_owed_at(const cfdp_owed *owed, size_t index, cfdp_pair *range) {
    bool there = index < CFDP_MOST_OWED && index < owed->state[CFDP_OWED_COUNT];
    range->start = there ? owed->state[2 * index] : 0;
    range->end = there ? owed->state[2 * index + 1] : 0;
    return there;
}

/* ---- plans */

/* cfdp_plan: a plan for what is missing. */
static inline cfdp_status cfdp_plan_get(const cfdp_missing *missing, cfdp_pair *requests, size_t requests_room,
                                        cfdp_planned_nak *naks, size_t naks_room, cfdp_planned *planned) {
    const cfdp_numbers numbers = cfdp_numbers_of(&missing->header);
    uint64_t answer[CFDP_ANSWER_LEN];
    cfdp_plan(numbers.shape, numbers.ids, missing->packet, &missing->received->start, 2 * missing->received_count,
              missing->scope.start, missing->scope.end, &requests->start, 2 * requests_room, &naks->scope.start, 3 * naks_room,
              answer);
    cfdp_status status = cfdp_status_of(answer);
    planned->requests = (size_t)answer[CFDP_ANSWER_PLAN_REQUESTS];
    planned->naks = (size_t)answer[CFDP_ANSWER_PLAN_NAKS];
    return status;
}

/* cfdp_plan_check: whether a plan, of anyone's, asks for exactly what is missing, in NAKs that fit. */
static inline cfdp_status cfdp_plan_accepts(const cfdp_missing *missing, const cfdp_pair *requests, size_t requests_count,
                                            const cfdp_planned_nak *naks, size_t naks_count, bool *accepted) {
    const cfdp_numbers numbers = cfdp_numbers_of(&missing->header);
    uint64_t answer[CFDP_ANSWER_LEN];
    cfdp_plan_check(numbers.shape, numbers.ids, missing->packet, &missing->received->start, 2 * missing->received_count,
                    missing->scope.start, missing->scope.end, &requests->start, 2 * requests_count, &naks->scope.start,
                    3 * naks_count, answer);
    return cfdp_verdict_of(answer, accepted);
}

#endif
