/* The CFDP codec for headers, NAKs, EOFs, ACKs and Metadata PDUs (CCSDS 727.0-B-5) for C and C++: the functions of libcfdp.a, which link/archive.sh proves
   and makes for this machine.

   Every function gives one proved answer to every value of its parameters. Nothing allocates or panics, and nothing is read
   or written outside the caller's memory. docs/RULES.md has the bytes of each PDU, for each refusal what to do about it, and the
   words that are used here.

   Memory. A pointer is not null, even with a length of 0, and points at as many elements as are named. Memory that a call
   writes, all that is not const, overlaps no other memory of that call; memory that it only reads may overlap. A refused
   write changes no byte of `buf`; an accepted one changes the written bytes and no others.

   Threads. Nothing is shared between calls: no function keeps a pointer, or anything else. Threads may call at the same time,
   each with memory of its own to write.

   A header goes in as numbers: shape, seven flags and three widths in bytes, and ids, three values, at the places that
   CFDP_SHAPE_.. and CFDP_ID_.. name; where it is asked for, data_length, which is worked out for a PDU that is written. A flag is
   clear where it is 0, and else set. A width may be any value: what is not 1, 2, 4 or 8 is refused.

   The source is the entity that sends the file, and the destination the one that receives it, in every PDU of a transaction.
   A NAK travels from the destination to the source, and its direction bit, 1, says so: towards the file's sender.

   An answer comes out as CFDP_ANSWER_LEN numbers, all of them written by every call: CFDP_ACCEPTED and what was accepted, or
   the number of the refusal and its values; the rest is 0. Below, HEADER is the 14 numbers of a header, from
   CFDP_ANSWER_PDU_TYPE to CFDP_ANSWER_DESTINATION, and VALUE is the number at CFDP_ANSWER_VALUE. The NAK

     28 00 11 00 01 02 03 08 00 00 00 00 00 00 03 E8 00 00 00 64 00 00 00 C8

   is read as

     0                        accepted
     0 1 0 0 0 0 0            a directive, towards the file's sender; all other flags clear
     17                       bytes of data
     1 1   1 2   1 3          widths and values: source 1, sequence number 2, destination 3
     0 1000                   the scope
     16 24 1                  the request area starts at 16, ends at 24 and holds 1 pair: 100, 200
     0 0 0 0

   and of its first 20 bytes the answer is 1 20 24 and zeros: 20 bytes are there, and 24 are needed.

   Where a PDU ends. It has P bytes, the h of its header and the d of its data, and the next one starts there:

     cfdp_header_read(bytes, bytes_len, answer);
     pdu_length = answer[CFDP_ANSWER_HEADER_LENGTH] + answer[CFDP_ANSWER_DATA_LENGTH];

   The data of a PDU ends at P or, with the CRC flag, two bytes before it, where the checksum stands: CFDP_ANSWER_NAK_DATA_END,
   CFDP_ANSWER_EOF_DATA_END, CFDP_ANSWER_ACK_DATA_END and CFDP_ANSWER_METADATA_DATA_END are that place, E, and not P.

   A stream of PDUs is framed by P alone. Read the header, with more bytes for as long as it is refused with 1; wait until P
   bytes are there; read these P bytes as a PDU; go on at P, whether they were accepted or refused. A header that is refused
   with 2, 3 or 4 has no P, and where the next PDU starts cannot be known. Do not wait for what the reader of a directive asks
   for once it has P bytes: of a PDU of 7 or 8 bytes, which is too short for one, it asks for a ninth (refusal 1), and that
   byte belongs to the next PDU. A stream of NAKs alone goes to cfdp_receive, which frames it. */
#ifndef CFDP_H
#define CFDP_H

#include <stdbool.h>
#include <stddef.h>
#include <stdint.h>

/* The version of this file: it changes where a name, a place or the length of an answer does. */
#define CFDP_INTERFACE 2

/* The version in a header, the only one that is read and written. */
#define CFDP_VERSION 1

/* How many numbers an answer, the shape and the ids of a header have. */
#define CFDP_ANSWER_LEN 24
#define CFDP_SHAPE_LEN 10
#define CFDP_IDS_LEN 3

/* Limits: bytes of a header, of the data and of a PDU; pairs of a NAK. */
#define CFDP_LEAST_HEADER 7
#define CFDP_MOST_HEADER 28
#define CFDP_MOST_DATA 65535
#define CFDP_MOST_PDU 65563
#define CFDP_MOST_NORMAL_PAIRS 8190
#define CFDP_MOST_LARGE_PAIRS 4094

/* The bytes of a receiver's window, which is the longest PDU that it takes. */
#define CFDP_WINDOW_LEN 2048

/* How many numbers the state of a log has, and the most ranges that it keeps. */
#define CFDP_OWED_LEN 516
#define CFDP_MOST_OWED 256

/* What stands at answer[CFDP_ANSWER_NUMBER], and what follows it as answer[CFDP_ANSWER_FIRST] and answer[CFDP_ANSWER_SECOND]. */
enum {
    CFDP_ACCEPTED = 0,
    CFDP_REFUSED_BUFFER_SHORT = 1,      /* bytes that are there, bytes that are needed */
    CFDP_REFUSED_VERSION = 2,           /* the version, which is not CFDP_VERSION */
    CFDP_REFUSED_ENTITY_WIDTH = 3,      /* the width, which is not 1, 2, 4 or 8 */
    CFDP_REFUSED_SEQUENCE_WIDTH = 4,    /* the width, likewise */
    CFDP_REFUSED_CHECKSUM = 5,          /* the PDU's last 16 bits; the checksum over all of it is not 0 */
    CFDP_REFUSED_DATA_SHORT = 6,        /* where the declared data ends, where it would have to */
    CFDP_REFUSED_UNKNOWN_DIRECTIVE = 7, /* its code */
    CFDP_REFUSED_OTHER_DIRECTIVE = 8,   /* its code: a known directive, and not the one that is read */
    CFDP_REFUSED_SCOPE = 9,             /* scope_start and scope_end, one of them above 4294967295 in a normal NAK */
    CFDP_REFUSED_PAIRS = 10,            /* pairs, CFDP_MOST_NORMAL_PAIRS or CFDP_MOST_LARGE_PAIRS, which they exceed */
    CFDP_REFUSED_OUTPUT_SHORT = 11,     /* bytes that `buf` has, bytes that are needed */
    CFDP_REFUSED_ODD_COUNT = 12,        /* how many numbers were given, which are no pairs */
    CFDP_REFUSED_WIDTHS_DIFFER = 13,    /* the width of the source, that of the destination */
    CFDP_REFUSED_VALUE = 14,            /* the value, the width that it does not fit */
    CFDP_REFUSED_PACKET_SMALL = 15,     /* nothing; a NAK with no pair does not fit the packet */
    CFDP_REFUSED_CONDITION = 16,        /* nothing; the condition code is 12, 13 or above 15 */
    CFDP_REFUSED_ACKNOWLEDGED = 17,     /* nothing; the acknowledged directive is neither EOF (4) nor Finished (5) */
    CFDP_REFUSED_ORDER = 18,            /* a pair out of order: of a comparison the NAK and the pair, from 1; of a log the offset */
    CFDP_REFUSED_TRANSACTIONS = 19,     /* nothing; the NAKs are of different transactions, by source or sequence number */
    CFDP_REFUSED_NO_ROOM = 20,          /* nothing; what is to be stored outnumbers the caller's numbers */
    CFDP_REFUSED_NOT_A_DIRECTIVE = 21,  /* nothing; the PDU type is 1, file data */
    CFDP_REFUSED_PDU_LARGE = 22,        /* nothing; the PDU is longer than a receiver's window */
    CFDP_REFUSED_RANGES = 23,           /* nothing; received ranges or the scope are out of order, or a log's memory is no state */
    CFDP_REFUSED_NO_REQUEST_FITS = 24,  /* nothing; a byte is missing, and the packet holds no request */
    CFDP_REFUSED_FIELD_CUT = 25,        /* the offset of the name or option that runs past its end */
    CFDP_REFUSED_ENTRY = 26,            /* the offset of the log's entry that is cut, of an unknown tag or of a wrong length */
    CFDP_REFUSED_OWED = 27,             /* nothing; more ranges are owed than are kept */
    CFDP_REFUSED_FAULT_LOCATION = 28,   /* nothing; what follows an EOF's file size is not one entity identifier field */
    CFDP_REFUSED_FILE_SIZE = 29,        /* nothing; the file size is above 4294967295 without the large file flag */
    CFDP_REFUSED_CHECKSUM_TYPE = 30,    /* nothing; the checksum type is not 0, 1, 2, 3 or 15 */
    CFDP_REFUSED_NAME = 31,             /* nothing; a name is longer than 255 bytes */
    CFDP_REFUSED_DATA_LARGE = 32        /* nothing; the data field would be longer than CFDP_MOST_DATA */
};

/* The places of an answer. */
enum {
    CFDP_ANSWER_NUMBER = 0,
    /* a refusal's values */
    CFDP_ANSWER_FIRST = 1,
    CFDP_ANSWER_SECOND = 2,
    /* of a function that answers one number and no header */
    CFDP_ANSWER_VALUE = 1,
    /* HEADER */
    CFDP_ANSWER_PDU_TYPE = 1,
    CFDP_ANSWER_DIRECTION = 2,
    CFDP_ANSWER_MODE = 3,
    CFDP_ANSWER_CRC = 4,
    CFDP_ANSWER_LARGE = 5,
    CFDP_ANSWER_SEGMENTATION_CONTROL = 6,
    CFDP_ANSWER_SEGMENT_METADATA = 7,
    CFDP_ANSWER_DATA_LENGTH = 8,
    CFDP_ANSWER_SOURCE_WIDTH = 9,
    CFDP_ANSWER_SOURCE = 10,
    CFDP_ANSWER_SEQUENCE_WIDTH = 11,
    CFDP_ANSWER_SEQUENCE = 12,
    CFDP_ANSWER_DESTINATION_WIDTH = 13,
    CFDP_ANSWER_DESTINATION = 14,
    /* after the HEADER of cfdp_header_read: h */
    CFDP_ANSWER_HEADER_LENGTH = 15,
    /* after the HEADER of a PDU that was written or finished: P */
    CFDP_ANSWER_PDU_LENGTH = 15,
    /* after the HEADER of cfdp_nak_read */
    CFDP_ANSWER_NAK_SCOPE_START = 15,
    CFDP_ANSWER_NAK_SCOPE_END = 16,
    CFDP_ANSWER_NAK_AREA_START = 17,
    CFDP_ANSWER_NAK_DATA_END = 18,
    CFDP_ANSWER_NAK_PAIRS = 19,
    /* after the HEADER of cfdp_eof_read; the fault location is 1 where there is one, and else this and the next two are 0 */
    CFDP_ANSWER_EOF_CONDITION = 15,
    CFDP_ANSWER_EOF_FILE_CHECKSUM = 16,
    CFDP_ANSWER_EOF_FILE_SIZE = 17,
    CFDP_ANSWER_EOF_FAULT = 18,
    CFDP_ANSWER_EOF_FAULT_WIDTH = 19,
    CFDP_ANSWER_EOF_FAULT_VALUE = 20,
    CFDP_ANSWER_EOF_DATA_END = 21,
    /* after the HEADER of cfdp_ack_read */
    CFDP_ANSWER_ACK_DIRECTIVE = 15,
    CFDP_ANSWER_ACK_CONDITION = 16,
    CFDP_ANSWER_ACK_STATUS = 17,
    CFDP_ANSWER_ACK_DATA_END = 18,
    /* after the HEADER of cfdp_metadata_read: a name is the bytes from its start up to its end, and the options those up to E */
    CFDP_ANSWER_METADATA_CLOSURE = 15,
    CFDP_ANSWER_METADATA_CHECKSUM_TYPE = 16,
    CFDP_ANSWER_METADATA_FILE_SIZE = 17,
    CFDP_ANSWER_METADATA_SOURCE_NAME_START = 18,
    CFDP_ANSWER_METADATA_SOURCE_NAME_END = 19,
    CFDP_ANSWER_METADATA_DESTINATION_NAME_START = 20,
    CFDP_ANSWER_METADATA_DESTINATION_NAME_END = 21,
    CFDP_ANSWER_METADATA_OPTION_AREA_START = 22,
    CFDP_ANSWER_METADATA_DATA_END = 23,
    /* of cfdp_metadata_option, which answers no header: the next is 0 where no option is left */
    CFDP_ANSWER_OPTION_TYPE = 1,
    CFDP_ANSWER_OPTION_VALUE_START = 2,
    CFDP_ANSWER_OPTION_VALUE_END = 3,
    CFDP_ANSWER_OPTION_NEXT = 4,
    /* of cfdp_differ */
    CFDP_ANSWER_DIFFER_METADATA_1 = 1,
    CFDP_ANSWER_DIFFER_METADATA_2 = 2,
    CFDP_ANSWER_DIFFER_RANGES = 3,
    /* after the HEADER of cfdp_nak_reserve: what the NAK will have */
    CFDP_ANSWER_RESERVED_PAIRS = 15,
    CFDP_ANSWER_RESERVED_AREA_START = 16,
    CFDP_ANSWER_RESERVED_DATA_END = 17,
    CFDP_ANSWER_RESERVED_PDU_LENGTH = 18,
    /* of cfdp_owed_run, after a refusal's values and where nothing is refused: the offset where the run stands */
    CFDP_ANSWER_OWED_AT = 3,
    /* of cfdp_plan */
    CFDP_ANSWER_PLAN_REQUESTS = 1,
    CFDP_ANSWER_PLAN_NAKS = 2
};

/* The places of a shape: seven flags, three widths. */
enum {
    CFDP_SHAPE_PDU_TYPE = 0,             /* 0 a directive, 1 file data */
    CFDP_SHAPE_DIRECTION = 1,            /* 0 towards the file's receiver, 1 towards its sender */
    CFDP_SHAPE_MODE = 2,                 /* 0 acknowledged, 1 unacknowledged */
    CFDP_SHAPE_CRC = 3,                  /* 1 where the PDU ends in a checksum */
    CFDP_SHAPE_LARGE = 4,                /* 1 where offsets and sizes have 8 bytes, 0 where they have 4 */
    CFDP_SHAPE_SEGMENTATION_CONTROL = 5, /* 1 where record boundaries are kept */
    CFDP_SHAPE_SEGMENT_METADATA = 6,     /* 1 where segments have metadata */
    CFDP_SHAPE_SOURCE_WIDTH = 7,
    CFDP_SHAPE_SEQUENCE_WIDTH = 8,
    CFDP_SHAPE_DESTINATION_WIDTH = 9
};

/* The places of a log's state: the ranges, start and end by turns, from 0 on; what stands after the last of them is 0. */
enum {
    CFDP_OWED_COUNT = 512,   /* how many ranges there are */
    CFDP_OWED_KNOWN = 513,   /* 1 once a NAK was taken, and else this and the next two are 0 */
    CFDP_OWED_SOURCE = 514,  /* of the first that was taken */
    CFDP_OWED_SEQUENCE = 515 /* its transaction's sequence number */
};

/* Places have these names too: a source may use either. */
#define CFDP_ANSWER_TYPE CFDP_ANSWER_PDU_TYPE
#define CFDP_ANSWER_CONTROL CFDP_ANSWER_SEGMENTATION_CONTROL
#define CFDP_ANSWER_METADATA CFDP_ANSWER_SEGMENT_METADATA
#define CFDP_ANSWER_WRITTEN CFDP_ANSWER_PDU_LENGTH
#define CFDP_ANSWER_NAK_START CFDP_ANSWER_NAK_SCOPE_START
#define CFDP_ANSWER_NAK_END CFDP_ANSWER_NAK_SCOPE_END
#define CFDP_ANSWER_NAK_AREA CFDP_ANSWER_NAK_AREA_START
#define CFDP_ANSWER_NAK_STOP CFDP_ANSWER_NAK_DATA_END
#define CFDP_ANSWER_EOF_STOP CFDP_ANSWER_EOF_DATA_END
#define CFDP_ANSWER_ACK_STOP CFDP_ANSWER_ACK_DATA_END
#define CFDP_ANSWER_METADATA_SOURCE CFDP_ANSWER_METADATA_SOURCE_NAME_START
#define CFDP_ANSWER_METADATA_SOURCE_STOP CFDP_ANSWER_METADATA_SOURCE_NAME_END
#define CFDP_ANSWER_METADATA_DESTINATION CFDP_ANSWER_METADATA_DESTINATION_NAME_START
#define CFDP_ANSWER_METADATA_DESTINATION_STOP CFDP_ANSWER_METADATA_DESTINATION_NAME_END
#define CFDP_ANSWER_METADATA_OPTIONS CFDP_ANSWER_METADATA_OPTION_AREA_START
#define CFDP_ANSWER_METADATA_STOP CFDP_ANSWER_METADATA_DATA_END
#define CFDP_ANSWER_OPTION_START CFDP_ANSWER_OPTION_VALUE_START
#define CFDP_ANSWER_OPTION_STOP CFDP_ANSWER_OPTION_VALUE_END
#define CFDP_ANSWER_RESERVED_AREA CFDP_ANSWER_RESERVED_AREA_START
#define CFDP_ANSWER_RESERVED_STOP CFDP_ANSWER_RESERVED_DATA_END
#define CFDP_ANSWER_RESERVED_LENGTH CFDP_ANSWER_RESERVED_PDU_LENGTH
#define CFDP_SHAPE_TYPE CFDP_SHAPE_PDU_TYPE
#define CFDP_SHAPE_CONTROL CFDP_SHAPE_SEGMENTATION_CONTROL
#define CFDP_SHAPE_METADATA CFDP_SHAPE_SEGMENT_METADATA

/* The places of ids. */
enum { CFDP_ID_SOURCE = 0, CFDP_ID_SEQUENCE = 1, CFDP_ID_DESTINATION = 2 };

#ifdef __cplusplus
extern "C" {
#endif

/* ---- the checksum and the header */

/* The checksum of all bytes: x^16 + x^12 + x^5 + 1 from 0xFFFF; over a PDU that ends in its checksum it is 0. */
uint16_t cfdp_checksum(const uint8_t *bytes, size_t bytes_len);

/* Reads a header at the front of the bytes, whatever follows it: HEADER, h; or 1, 2, 3, 4. */
void cfdp_header_read(const uint8_t *bytes, size_t bytes_len, uint64_t answer[CFDP_ANSWER_LEN]);

/* Judges a header: HEADER; or 13, 3, 4, 14. */
void cfdp_header_build(const uint8_t shape[CFDP_SHAPE_LEN], uint16_t data_length, const uint64_t ids[CFDP_IDS_LEN],
                       uint64_t answer[CFDP_ANSWER_LEN]);

/* Writes a header to the front of buf: VALUE, h; or 13, 3, 4, 14, 11. */
void cfdp_header_write(const uint8_t shape[CFDP_SHAPE_LEN], uint16_t data_length, const uint64_t ids[CFDP_IDS_LEN],
                       uint8_t *buf, size_t buf_len, uint64_t answer[CFDP_ANSWER_LEN]);

/* Verifies that the bytes hold the whole PDU of a header and, with the CRC flag, that its checksum is zero: VALUE, E;
   or 13, 3, 4, 14, 1, 5. */
void cfdp_header_verify(const uint8_t shape[CFDP_SHAPE_LEN], uint16_t data_length, const uint64_t ids[CFDP_IDS_LEN],
                        const uint8_t *bytes, size_t bytes_len, uint64_t answer[CFDP_ANSWER_LEN]);

/* ---- reading a NAK */

/* Reads a NAK at the front of the bytes, whatever follows it: HEADER, start and end of its scope, where its request area
   starts, where it ends (and the data with it, at E), how many whole pairs it holds; or 1 to 8, 21. The area reaches from
   bytes + answer[CFDP_ANSWER_NAK_AREA_START] up to bytes + answer[CFDP_ANSWER_NAK_DATA_END]. */
void cfdp_nak_read(const uint8_t *bytes, size_t bytes_len, uint64_t answer[CFDP_ANSWER_LEN]);

/* The pair of an index in a request area, counted from 0, its numbers of 8 bytes (large) or 4: start and end in pair; false
   and two zeros where the area has no such whole pair. */
bool cfdp_nak_pair(const uint8_t *area, size_t area_len, bool large, size_t index, uint64_t pair[2]);

/* Copies the whole pairs of a request area, as many as numbers has room for, start and end by turns: how many pairs it
   copied; the rest of numbers stays as it was. */
size_t cfdp_nak_pairs(const uint8_t *area, size_t area_len, bool large, uint64_t *numbers, size_t numbers_len);

/* ---- receiving NAKs from fragments of a stream, in which they are laid end to end

   A receiver is a window and a count, which the caller keeps: fresh, and after a reset, they are CFDP_WINDOW_LEN zeros and 0. However
   the stream is cut, calls until every fragment is used, or one is refused, give the same NAKs and the same refusal, and
   leave the same window and count.

     while (fragment_len > 0) {
         size_t taken = cfdp_receive(window, &filled, fragment, fragment_len, answer);
         fragment += taken, fragment_len -= taken;
         if (answer[CFDP_ANSWER_NUMBER] == CFDP_ACCEPTED)
             .. a NAK, in the window until the next call
         else if (answer[CFDP_ANSWER_NUMBER] != CFDP_RECEIVE_MORE)
             .. refused, now and at every call from here on, until both are reset
     } */

/* What stands at answer[CFDP_ANSWER_NUMBER] where more is wanted; no receiver refuses with 1. */
enum { CFDP_RECEIVE_MORE = 1 };

/* Takes bytes of a fragment into the window, after the `filled` bytes that are there, up to the byte that completes a NAK or with which
   it is refused, or all of them: how many it took. `filled` is then how many bytes of the next PDU are in the window. The
   answer is 1 and zeros where more is wanted; a NAK as cfdp_nak_read shows it, its area in the window; or 2 to 8, 21, and 22 as
   soon as a header is there whose PDU is longer than the window. A refusal leaves `filled` as the refused bytes, so that it is given
   again, and no byte taken, by every further call. Any window and any count has its answer. */
size_t cfdp_receive(uint8_t window[CFDP_WINDOW_LEN], size_t *filled, const uint8_t *fragment, size_t fragment_len,
                    uint64_t answer[CFDP_ANSWER_LEN]);

/* ---- writing a NAK: direction and data_length are worked out, and handed back in the header; a start above its end is accepted */

/* Writes a NAK with no list of pairs, the large file flag as given: HEADER, P; or 13, 3, 4, 14, 21, 9, 11. */
void cfdp_nak_write(const uint8_t shape[CFDP_SHAPE_LEN], const uint64_t ids[CFDP_IDS_LEN], uint64_t scope_start,
                    uint64_t scope_end, uint8_t *buf, size_t buf_len, uint64_t answer[CFDP_ANSWER_LEN]);

/* Writes a NAK with normal pairs, start and end by turns, which clear the large file flag, even none of them: HEADER, P; or
   13, 3, 4, 14, 21, 12, 9, 10, 11. */
void cfdp_nak_write_normal(const uint8_t shape[CFDP_SHAPE_LEN], const uint64_t ids[CFDP_IDS_LEN], uint64_t scope_start,
                           uint64_t scope_end, const uint32_t *numbers, size_t count, uint8_t *buf, size_t buf_len,
                           uint64_t answer[CFDP_ANSWER_LEN]);

/* Writes a NAK with large pairs, which set the flag, likewise. */
void cfdp_nak_write_large(const uint8_t shape[CFDP_SHAPE_LEN], const uint64_t ids[CFDP_IDS_LEN], uint64_t scope_start,
                          uint64_t scope_end, const uint64_t *numbers, size_t count, uint8_t *buf, size_t buf_len,
                          uint64_t answer[CFDP_ANSWER_LEN]);

/* ---- reserving room for pairs, and finishing the NAK around them */

/* Reserves room for that many pairs in buf and changes no byte, the large file flag as given: HEADER, the pairs, where the
   request area starts, where it ends (at E), the P that the NAK will have; or 13, 3, 4, 14, 21, 10, 11. The caller stores the
   pairs' numbers big-endian, 8 bytes each with the flag, else 4, from buf + answer[CFDP_ANSWER_RESERVED_AREA_START] up to
   buf + answer[CFDP_ANSWER_RESERVED_DATA_END]. */
void cfdp_nak_reserve(const uint8_t shape[CFDP_SHAPE_LEN], const uint64_t ids[CFDP_IDS_LEN], size_t pairs,
                      const uint8_t *buf, size_t buf_len, uint64_t answer[CFDP_ANSWER_LEN]);

/* Writes header, directive, scope and checksum around the pairs that the caller stored, given what reserving was given, which
   is judged anew: HEADER, P; or 13, 3, 4, 14, 21, 10, 9, 11. */
void cfdp_nak_finish(const uint8_t shape[CFDP_SHAPE_LEN], const uint64_t ids[CFDP_IDS_LEN], size_t pairs, uint64_t scope_start,
                     uint64_t scope_end, uint8_t *buf, size_t buf_len, uint64_t answer[CFDP_ANSWER_LEN]);

/* Most requests: how many pairs a NAK has at most in a packet of that many bytes, and at most CFDP_MOST_NORMAL_PAIRS or
   CFDP_MOST_LARGE_PAIRS, by the large file flag: VALUE, the count; or 13, 3, 4, 14, 21, 15. Into a buffer of that size a NAK
   of so many pairs of the flag's width is written, and one of more is refused. */
void cfdp_nak_most(const uint8_t shape[CFDP_SHAPE_LEN], const uint64_t ids[CFDP_IDS_LEN], size_t packet,
                   uint64_t answer[CFDP_ANSWER_LEN]);

/* ---- comparing: nothing is written */

/* Compares the NAK at the front of the bytes with the one that cfdp_nak_write would write: VALUE, 1 where all header fields
   (identifiers by number, not width), the data length and the scope are equal and the request area is exactly the pairs, else
   0; or the reader's refusals, and then the writer's but 11. */
void cfdp_nak_compare(const uint8_t *bytes, size_t bytes_len, const uint8_t shape[CFDP_SHAPE_LEN],
                      const uint64_t ids[CFDP_IDS_LEN], uint64_t scope_start, uint64_t scope_end,
                      uint64_t answer[CFDP_ANSWER_LEN]);

/* The same with the one that cfdp_nak_write_normal would write. */
void cfdp_nak_compare_normal(const uint8_t *bytes, size_t bytes_len, const uint8_t shape[CFDP_SHAPE_LEN],
                             const uint64_t ids[CFDP_IDS_LEN], uint64_t scope_start, uint64_t scope_end,
                             const uint32_t *numbers, size_t count, uint64_t answer[CFDP_ANSWER_LEN]);

/* The same with the one that cfdp_nak_write_large would write. */
void cfdp_nak_compare_large(const uint8_t *bytes, size_t bytes_len, const uint8_t shape[CFDP_SHAPE_LEN],
                            const uint64_t ids[CFDP_IDS_LEN], uint64_t scope_start, uint64_t scope_end,
                            const uint64_t *numbers, size_t count, uint64_t answer[CFDP_ANSWER_LEN]);

/* ---- two NAKs of one transaction beside each other */

/* Compares the NAKs at the front of two buffers, whatever follows them: whether the first asks for metadata (its first pair is
   0, 0), whether the second does, and how many ranges of bytes only one of them asks for. Into ranges, in rising order, go
   the longest such ranges, three numbers for each: the first byte, the first byte after, and 1 or 2, the NAK that asks. The
   numbers after them stay as they were, and a refused call changes none. A pair is the first byte asked for and the first
   byte after; scope, destination, flags, widths and a part of a pair at the end do not matter. Or the reader's refusals,
   of the first NAK and then of the second; 18 where a pair but that for metadata has no start below its end or a start
   before the end of the pair before, of the first NAK and then of the second: the NAK and the pair, both from 1; 19; 20 where
   the ranges outnumber the whole threes of ranges_len.

   Room. The ranges never outnumber the requests of both NAKs together, the pairs for metadata left out. So with three numbers
   for each of these 20 is never given; and as the two readings count the pairs, those for metadata too, this is enough:

     cfdp_nak_read(first, first_len, one);
     cfdp_nak_read(second, second_len, two);
     ranges_len = 3 * (one[CFDP_ANSWER_NAK_PAIRS] + two[CFDP_ANSWER_NAK_PAIRS]); */
void cfdp_differ(const uint8_t *first, size_t first_len, const uint8_t *second, size_t second_len, uint64_t *ranges,
                 size_t ranges_len, uint64_t answer[CFDP_ANSWER_LEN]);

/* ---- EOF */

/* Reads an EOF at the front of the bytes, whatever follows it: HEADER, condition code, file checksum, file size, whether there
   is a fault location, its width and its value, E; or 1 to 8, 21, 16, 28. */
void cfdp_eof_read(const uint8_t *bytes, size_t bytes_len, uint64_t answer[CFDP_ANSWER_LEN]);

/* Writes an EOF, the large file flag as given; direction and data_length are worked out, and handed back in the header. With
   fault false there is no fault location, and its width and value are not looked at: HEADER, P; or 13, 3, 4, 14, 21, 16, 29,
   3 and 14 for the fault location, 11. */
void cfdp_eof_write(const uint8_t shape[CFDP_SHAPE_LEN], const uint64_t ids[CFDP_IDS_LEN], uint8_t condition,
                    uint32_t file_checksum, uint64_t file_size, bool fault, uint8_t fault_width, uint64_t fault_value,
                    uint8_t *buf, size_t buf_len, uint64_t answer[CFDP_ANSWER_LEN]);

/* ---- ACK */

/* Reads an ACK at the front of the bytes, whatever follows it: HEADER, the acknowledged directive's code, condition code,
   transaction status, E; or 1 to 8, 21, 16, 17. */
void cfdp_ack_read(const uint8_t *bytes, size_t bytes_len, uint64_t answer[CFDP_ANSWER_LEN]);

/* Writes the ACK of an EOF (directive 4), towards the file's sender, or of a Finished (5), towards its receiver. A status that
   is none of 0, 1 and 2 is written as 3, unrecognized: HEADER, P; or 13, 3, 4, 14, 21, 16, 17, 11. */
void cfdp_ack_write(const uint8_t shape[CFDP_SHAPE_LEN], const uint64_t ids[CFDP_IDS_LEN], uint8_t directive,
                    uint8_t condition, uint8_t status, uint8_t *buf, size_t buf_len, uint64_t answer[CFDP_ANSWER_LEN]);

/* ---- Metadata */

/* Reads a Metadata PDU at the front of the bytes, whatever follows it: HEADER, closure requested, checksum type, file size, where the
   source's name starts and ends, where the destination's does, where the option area does (and the data with it, at E); or 1 to 8, 21,
   30, 25 with the offset of the name's length byte or of the option's type byte. The source's name reaches from
   bytes + answer[CFDP_ANSWER_METADATA_SOURCE_NAME_START] up to bytes + answer[CFDP_ANSWER_METADATA_SOURCE_NAME_END], and so do the
   others. A name is bytes, of any value, with no zero after it. */
void cfdp_metadata_read(const uint8_t *bytes, size_t bytes_len, uint64_t answer[CFDP_ANSWER_LEN]);

/* The option at a place of an option area: its type, where its value starts and ends, where the next begins, all counted from the area's
   start; or 25 with the place, where it is cut, which no area of an accepted PDU has. At the end of the area, and after it, all are 0. The
   first stands at 0:

     for (at = 0; cfdp_metadata_option(area, area_len, at, answer), answer[CFDP_ANSWER_OPTION_NEXT] != 0;
          at = answer[CFDP_ANSWER_OPTION_NEXT]) .. */
void cfdp_metadata_option(const uint8_t *area, size_t area_len, size_t at, uint64_t answer[CFDP_ANSWER_LEN]);

/* Writes a Metadata PDU, the large file flag as given; direction and data_length are worked out, and handed back in the header. The options
   are given as bytes, each with its type and its length in front: HEADER, P; or 13, 3, 4, 14, 21, 30, 29, 31, 25 with the offset from the
   option area's start, 32, 11. */
void cfdp_metadata_write(const uint8_t shape[CFDP_SHAPE_LEN], const uint64_t ids[CFDP_IDS_LEN], bool closure,
                         uint8_t checksum_type, uint64_t file_size, const uint8_t *source_name, size_t source_name_len,
                         const uint8_t *destination_name, size_t destination_name_len, const uint8_t *option_area,
                         size_t option_area_len, uint8_t *buf, size_t buf_len, uint64_t answer[CFDP_ANSWER_LEN]);

/* ---- what is owed: a log of NAKs heard and ranges resent

   An entry is a tag, a length of two bytes, big-endian, and so many bytes. Tag 1 is a NAK, and what lies after its PDU is not looked
   at; tag 2 is a range that was resent, its start and the first byte after it, 8 bytes each. A state is CFDP_OWED_LEN numbers that
   the caller keeps, all 0 before the first entry. It holds the longest ranges of the bytes that are owed, and so as few as there can
   be. A refused entry leaves it as it was. Memory that is no state, with more than CFDP_MOST_OWED ranges or ranges that do not rise,
   is refused with 23; no call makes a valid state invalid. */

/* Takes the entry at the front of the bytes, whatever follows it; at is its offset in the log: VALUE, how many bytes it has, so that
   the next begins there; or 23, 26, those of cfdp_nak_read, 18, 19, 27. */
void cfdp_owed_entry(const uint8_t *bytes, size_t bytes_len, size_t at, uint64_t state[CFDP_OWED_LEN],
                     uint64_t answer[CFDP_ANSWER_LEN]);

/* Takes the entries of a log from the offset `from` on, one after the other, until its end or a refusal: CFDP_ACCEPTED, or the same
   refusals with their values; and at CFDP_ANSWER_OWED_AT the offset of the end, or of the entry that was refused, before which the
   state stands. */
void cfdp_owed_run(const uint8_t *log, size_t log_len, size_t from, uint64_t state[CFDP_OWED_LEN],
                   uint64_t answer[CFDP_ANSWER_LEN]);

/* ---- plans of NAKs: which parts of a scope are asked for again, and in which NAKs

   Received ranges and requests are numbers, start and end by turns, the end being the first byte after. A plan's NAKs are numbers by
   threes: start and end of its scope, and how many of the requests are its own, in their order. */

/* Checks a plan, which may be anyone's, for the packet size, the whole scope and the received ranges: VALUE, 1 where each NAK
   fits the packet, the requests rise, stay apart, lie each in its NAK's scope and ask for exactly the bytes of the scope that
   were not received, and the scopes join up from scope_start to scope_end; else 0; or 13, 3, 4, 14, 21, 15, 12 for the received ranges, 12
   for the requests, 23, 9. A plan of no NAK is right where nothing is missing. */
void cfdp_plan_check(const uint8_t shape[CFDP_SHAPE_LEN], const uint64_t ids[CFDP_IDS_LEN], size_t packet,
                     const uint64_t *received, size_t received_len, uint64_t scope_start, uint64_t scope_end,
                     const uint64_t *requests, size_t requests_len, const uint64_t *naks, size_t naks_len,
                     uint64_t answer[CFDP_ANSWER_LEN]);

/* Makes a plan, which the check accepts and each of whose NAKs is written into a buffer of the packet size: a request for each
   missing range, in as few NAKs as hold them. It stands at the front of requests and naks, and what is after it stays as it was:
   how many requests, how many NAKs; or what the check refuses, then 24, 20. A refused call changes none of these numbers.
   There are at most received_len / 2 + 1 missing ranges, and no more NAKs than these. */
void cfdp_plan(const uint8_t shape[CFDP_SHAPE_LEN], const uint64_t ids[CFDP_IDS_LEN], size_t packet, const uint64_t *received,
               size_t received_len, uint64_t scope_start, uint64_t scope_end, uint64_t *requests, size_t requests_len,
               uint64_t *naks, size_t naks_len, uint64_t answer[CFDP_ANSWER_LEN]);

#ifdef __cplusplus
}
#endif

#endif
