/* The receiver of Pursethistle for C99 and C++: link target/staticlib/libexports.a, which `tools/build library` leaves.
 * The rules are docs/01-scope.md ("01" below); times are microseconds.
 *
 * WHERE DATA IS LOST WITHOUT A WORD. Five things to get right. docs/COLLECTING.md has the reasons and the figures;
 * examples/long_pass.c is a loop that does them.
 * 1. Make a clock call each second, from before the first packet on, and also while no packet comes:
 *        pt_synchronize_clock(head, answer, now, (uint32_t)(now - start));
 *    Only this call moves the receiver's idea of the time on. Without it nothing is recovered from 2^31 microseconds
 *    (35 min 47 s) after the start on, or after the last adjustment: each packet is then due as soon as it comes, and
 *    each gap is given up at once, with packets that had arrived.
 * 2. Never hand the sender's stamps to that call. By 01's sign an adjustment doubles a drift, with the first sample
 *    and again with each thousand: 100 microseconds are 102,400 after 9,001 samples. Then packets are refused, or gaps
 *    are given up too early. The stamp of 1. has no drift. So the receiver does not follow a sender whose clock
 *    drifts; if that matters, correct the stamps of its packets before you hand them in.
 * 3. start is the reading that belongs to the sender's stamp 0: when the first packet comes, now minus its stamp.
 * 4. A late drop (PT_WORD_LATE) discards packets that had arrived. If the first packet of a message is lost, the rest
 *    of it is discarded even long before it is due. To rescue them, copy the head before each pop. On LATE, call
 *    pt_show with that copy for each number of the range, before the next data packet.
 * 5. Without late_drop, a packet that never comes stops the stream for good. Once the window is full, what comes is
 *    refused 7 or 8, and neither a drop request nor a clear helps.
 * And a recorded trace has 32 slots at most: a pass that was collected with more cannot be replayed.
 *
 * A receiver is a head and three areas, all of them the caller's memory, lent for the time of a call. The library allocates
 * nothing, keeps nothing between calls and starts no thread, so two receivers may be used by two threads at once. Head and areas
 * are plain data: copied together they are a second receiver.
 * A call takes any contents and any numbers. What is wrong is refused by its number. Then nothing has changed, except
 * answer, and the counters if a data packet is refused 7 to 10. A pointer must be valid for its length, aligned for its
 * type and not null, also for length 0; no two of them may overlap; and a bool must be 0 or 1: only this the library
 * cannot test.
 *
 * Each call returns 0, or the number of its refusal (enum pt_refusal), and writes all ten cells of answer: the word (enum
 * pt_word), then the values named below from answer[1] on, 0 in every other cell. A refusal answers PT_WORD_REFUSED, without
 * values but for PT_PACKET_TOO_EARLY.
 *
 * A whole program, which prints "5 bytes at 0: hello" (examples/run builds and runs it):

#include <stdio.h>
#include "pursethistle.h"

enum { CAPACITY = 32 };
static uint64_t head[PT_HEAD_WORDS], counters[PT_COUNTERS];
static uint64_t slots[PT_SLOTS_LEN(CAPACITY)];
static uint8_t payloads[PT_PAYLOADS_LEN(CAPACITY)], output[PT_PAYLOADS_LEN(CAPACITY)];

int main(void) {
    int64_t answer[PT_ANSWER_CELLS];
    if (pt_new(head, answer, 0, 20000, true, 2147483647, CAPACITY) != 0)
        return 1;
    pt_counted_handle_data_packet(head, counters, answer, slots, PT_SLOTS_LEN(CAPACITY), payloads, PT_PAYLOADS_LEN(CAPACITY),
                                  100, 2147483647, 1, PT_FIRST | PT_LAST, 0, (const uint8_t *)"hello", 5);
    if (pt_pop_next_message(head, answer, slots, PT_SLOTS_LEN(CAPACITY), payloads, PT_PAYLOADS_LEN(CAPACITY),
                            output, sizeof output, 20000) == 0 && answer[0] == PT_WORD_MESSAGE)
        printf("%d bytes at %d: %.*s\n", (int)answer[2], (int)answer[1], (int)answer[2], (const char *)output);
    return 0;
}

 */
#ifndef PURSETHISTLE_H
#define PURSETHISTLE_H

#include <limits.h>
#include <stddef.h>
#include <stdint.h>
#include <string.h>
#ifndef __cplusplus
#include <stdbool.h>
#endif

/* Sizes. */
#define PT_HEAD_WORDS 79      /* 64-bit words of a head */
#define PT_ANSWER_CELLS 10    /* signed 64-bit cells of an answer */
#define PT_COUNTERS 10        /* 64-bit counters (enum pt_counter); fresh ones are ten zeros */
#define PT_SLOT_WORDS 3       /* 64-bit words of the slot area for each slot */
#define PT_PAYLOAD_BYTES 1456 /* bytes of the payload area for each slot, and the longest payload */
#define PT_HISTORY_WORDS 2048 /* 64-bit words of the history area */
#define PT_CAPACITY_MAX 8192  /* slots at most */

/* Lengths of the areas for a capacity. A loss report never needs more words than slots, nor a message more than the payload
 * area's length. The areas need no setting up: a fresh receiver takes them with any contents. */
#define PT_SLOTS_LEN(capacity) ((size_t)PT_SLOT_WORDS * (capacity))
#define PT_PAYLOADS_LEN(capacity) ((size_t)PT_PAYLOAD_BYTES * (capacity))

/* Bits of a packet's location: PT_FIRST | PT_LAST for a message of one packet. */
#define PT_LAST 1
#define PT_FIRST 2

/* In a loss report: a word with this bit is the first number of a run, and the next word is its last. */
#define PT_LOSS_RUN 0x80000000u

/* In an ack's answer: no rate is known yet. */
#define PT_NO_RATE (-1)

/* Refusals, by 01's numbers and in its order of test: the lowest that holds is given.
 * Refusal 1 is given exactly if a number of the head is outside its range in 01 ("Head and lent areas"), or for one of the
 * causes here, which 01 does not list: words can be no head, and no call writes such words. They are counted from 0.
 *   1a  a flag over 1: word 7 (late_drop), 12 (a first drift came), or 10, 52, 72 (a time is set: of the last release, of the
 *       last arrival, of the probe)
 *   1b  a value beside an unset time: word 11, 53 or 73 is not 0 where the word before it is 0
 *   1c  a NaN other than 0x7ff8000000000000: word 13 or 14 (mean and sum of squares of the drift samples)
 *   1d  2^32 or more in a field of 32 bits: words 4 to 6, 9, 15 to 49, 54 to 69, 76 to 78; also where a window of intervals
 *       does not use the place
 *   1e  a window of intervals goes on at a place over 15: word 50 or 70 */
enum pt_refusal {
    PT_HEAD_BAD = 1,            /* a number of the head is out of range, or its words are no head (1a to 1e) */
    PT_AREA_SHORT = 2,          /* an area is shorter than the capacity, or 2,048 words, require */
    PT_CLOCK_RANGE = 3,         /* now is not in 0 .. 2^60 - 1 */
    PT_CLOCK_BACK = 4,          /* now is before the latest reading of an unrefused call, at first the start time */
    PT_BAD_NUMBER = 5,          /* a number of 2^31 or more, a message number of 2^26 or more, a location over 3 */
    PT_PAYLOAD_LONG = 6,        /* a payload over 1,456 bytes */
    PT_BUFFER_FULL = 7,         /* the next expected number, and no room */
    PT_PACKET_TOO_EARLY = 8,    /* after the next expected number, and too little room for it and the gap */
    PT_PACKET_TOO_LATE = 9,     /* before the window: released or discarded already */
    PT_DISCARDED_DUPLICATE = 10, /* received or given up already */
    PT_OUT_SHORT = 11,          /* the message that is due is longer than the output */
    PT_LIST_SHORT = 12,         /* the loss report needs more words than lent */
    PT_FASN_WORN = 13,          /* a full ACK is due, and the last one was number 4,294,967,295 */
    PT_DRIFT_RANGE = 14,        /* the adjusted reference time would be out of range */
    PT_BAD_SETTING = 15         /* in making: a setting, the start or the first number is out of range */
};

/* What answer[0] says. */
enum pt_word {
    PT_WORD_GOT = 0,
    PT_WORD_LIGHT = 1,
    PT_WORD_LOSS = 2,
    PT_WORD_REFUSED = 3,
    PT_WORD_MESSAGE = 4,
    PT_WORD_LATE = 5,
    PT_WORD_REPORT = 6,
    PT_WORD_ACK = 7,
    PT_WORD_RTT = 8,
    PT_WORD_GONE = 9,
    PT_WORD_ADJUSTED = 10,
    PT_WORD_UNSTEADY = 11,
    PT_WORD_CLEAR = 12,
    PT_WORD_NONE = 13,
    PT_WORD_MADE = 14,
    PT_WORD_ROOM = 15,
    PT_WORD_RECEIVED = 16,
    PT_WORD_OTHER = 17
};

/* The counters, each mod 2^64. A packet counts with its payload and 16 bytes. */
enum pt_counter {
    PT_RX_DATA = 0,           /* packets taken, and those refused 7 to 10 */
    PT_RX_BYTES = 1,          /* their bytes */
    PT_RX_UNIQUE_DATA = 2,    /* packets taken that were not recovered */
    PT_RX_UNIQUE_BYTES = 3,   /* their bytes */
    PT_RX_RETRANSMIT_DATA = 4, /* packets recovered */
    PT_RX_DROPPED_DATA = 5,   /* packets refused 7 to 9, and those given up by drop requests */
    PT_RX_DROPPED_BYTES = 6,  /* bytes of those refused 7 to 9 */
    PT_RX_ACK2 = 7,           /* ACK2s, known or not */
    PT_RX_ACK2_ERRORS = 8,    /* ACK2s of a known ACK: the Rust counts so, and 01 follows it */
    PT_RX_CLOCK_ADJUSTMENTS = 9 /* adjustments by a thousand samples */
};

#if defined(__cplusplus) && __cplusplus >= 201103L
#define PT_CHECK(name, fact) static_assert(fact, #name)
#elif !defined(__cplusplus) && defined(__STDC_VERSION__) && __STDC_VERSION__ >= 201112L
#define PT_CHECK(name, fact) _Static_assert(fact, #name)
#else
#define PT_CHECK(name, fact) typedef char pt_check_##name[(fact) ? 1 : -1]
#endif

PT_CHECK(bytes_have_8_bits, CHAR_BIT == 8);
PT_CHECK(a_length_has_64_bits, sizeof(size_t) == 8);
PT_CHECK(a_bool_has_one_byte, sizeof(bool) == 1);
PT_CHECK(a_variance_has_64_bits, sizeof(double) == sizeof(int64_t));
PT_CHECK(a_head_has_632_bytes, sizeof(uint64_t[PT_HEAD_WORDS]) == 632 && PT_HEAD_WORDS * 8 == 632);
PT_CHECK(an_answer_has_80_bytes, sizeof(int64_t[PT_ANSWER_CELLS]) == 80);
PT_CHECK(counters_have_80_bytes, sizeof(uint64_t[PT_COUNTERS]) == 80);
PT_CHECK(a_slot_has_24_bytes, sizeof(uint64_t[PT_SLOT_WORDS]) == 24);
PT_CHECK(a_history_has_1024_entries, PT_HISTORY_WORDS == 2 * 1024);
PT_CHECK(refusals_end_at_15, PT_BAD_SETTING == 15);
PT_CHECK(words_end_at_17, PT_WORD_OTHER == 17);
PT_CHECK(counters_end_at_9, PT_RX_CLOCK_ADJUSTMENTS == PT_COUNTERS - 1);

#undef PT_CHECK

#ifdef __cplusplus
extern "C" {
#endif

/* Makes a receiver: writes a fresh head. start is the reading that belongs to the sender's stamp 0, 0 .. 2^60 - 1;
 * latency at most 65,535,000; first, the number of the first packet, under 2^31; capacity 1 to 8,192 slots: at least
 * what comes in during the latency, as a packet without room is refused; many more take more time (docs/SPEED.md). With
 * late_drop a message that is late is given up; without it a packet that never comes stops the stream for good.
 * Refuses 15. Answers MADE. */
uint32_t pt_new(uint64_t head[PT_HEAD_WORDS], int64_t answer[PT_ANSWER_CELLS], int64_t start, uint32_t latency, bool late_drop,
                uint32_t first, size_t capacity);

/* A data packet came at now. Of its SRT header: number is the sequence number, location the two bits PP (see PT_FIRST),
 * message the low 26 bits of that word, stamp the 32-bit timestamp. An encrypted packet has to be decrypted before.
 * Refuses 1 to 10; for 8 answer[1] is the room and answer[2] the room that it needs, 2 or more.
 * Answers GOT: lrsn (the first number not received), 1 if it was lost before and is recovered; LIGHT: the same, and a light ACK
 * of lrsn is to be sent; LOSS: the first and the last number of the gap before it, which is to be reported at once. */
uint32_t pt_handle_data_packet(uint64_t head[PT_HEAD_WORDS], int64_t answer[PT_ANSWER_CELLS], uint64_t *slots, size_t slots_len,
                               uint8_t *payloads, size_t payloads_len, int64_t now, uint32_t number, uint32_t message,
                               uint32_t location, uint32_t stamp, const uint8_t *payload, size_t payload_len);

/* Releases the next message if it is due. Refuses 1 to 4 and 11. To be called until it answers NONE, and again each
 * 10 ms or so: no call says when the next message will be due.
 * Answers MESSAGE: release time (the time of the first packet's stamp, without the latency; never before the last one),
 * bytes (the first of output), packets; LATE: first and end of the numbers given up (end is not among them), and the
 * delay; NONE: nothing is due. Packets given up may have arrived: pt_show finds them, by a copy of the head from before
 * this call. */
uint32_t pt_pop_next_message(uint64_t head[PT_HEAD_WORDS], int64_t answer[PT_ANSWER_CELLS], const uint64_t *slots,
                             size_t slots_len, const uint8_t *payloads, size_t payloads_len, uint8_t *output, size_t output_len,
                             int64_t now);

/* Asks for the loss report that is due; SRT asks each 20 ms. Refuses 1 to 4 and 12.
 * Answers REPORT: how many words it has, which are the first of words (see PT_LOSS_RUN); NONE. */
uint32_t pt_on_nak_event(uint64_t head[PT_HEAD_WORDS], int64_t answer[PT_ANSWER_CELLS], uint64_t *slots, size_t slots_len,
                         uint32_t *words, size_t words_len, int64_t now);

/* Asks for the full ACK that is due; SRT asks each 10 ms. Refuses 1 to 4 and 13.
 * Answers ACK: its number, lrsn, mean and variance of the round trip, room, packet_receive_rate (packets a second),
 * estimated_link_capacity (bytes a second), data_receive_rate (the link's packets a second; the last three may be PT_NO_RATE);
 * NONE. */
uint32_t pt_on_full_ack_event(uint64_t head[PT_HEAD_WORDS], int64_t answer[PT_ANSWER_CELLS], uint64_t *history,
                              size_t history_len, int64_t now);

/* An ACK2 of the full ACK of this number came. Refuses 1 to 4.
 * Answers RTT: mean and variance of the round trip after it; NONE: no ACK of this number is held. */
uint32_t pt_handle_ack2_packet(uint64_t head[PT_HEAD_WORDS], int64_t answer[PT_ANSWER_CELLS], const uint64_t *history,
                               size_t history_len, int64_t now, uint32_t number);

/* The sender gives up the numbers first to last, both included. Refuses 1, 2 and 5.
 * Answers GONE: how many lost ones were given up. */
uint32_t pt_handle_drop_request(const uint64_t head[PT_HEAD_WORDS], int64_t answer[PT_ANSWER_CELLS], uint64_t *slots,
                                size_t slots_len, uint32_t first, uint32_t last);

/* Moves the clock's reference on, at the first call and then at each thousandth. So call it each second, with the stamp
 * (uint32_t)(now - start). By 01 stamp is what the sender's clock showed at now; but an adjustment doubles a drift, so
 * hand in no stamp of the sender's (see the top, and docs/DIFFERENCES.md, 1). Refuses 1, 3, 4 and 14.
 * Answers ADJUSTED: mean drift and deviation of a thousand samples; UNSTEADY: deviation, and in answer[9] the bits of the
 * variance (pt_variance); NONE: the first drift, or one more sample. */
uint32_t pt_synchronize_clock(uint64_t head[PT_HEAD_WORDS], int64_t answer[PT_ANSWER_CELLS], int64_t now, uint32_t stamp);

/* Forgets all that is held, and the history. Refuses 1. Answers CLEAR. */
uint32_t pt_clear(uint64_t head[PT_HEAD_WORDS], int64_t answer[PT_ANSWER_CELLS]);

/* Where the payload of a held number lies. Refuses 1, 2 and 5.
 * Answers RECEIVED: offset and length in payloads; OTHER: it is lost, given up or not held.
 * A pop writes no area. So after a pop that answered LATE, a copy of the head from before it still finds each packet of
 * the range that had arrived, until the next data packet is taken. */
uint32_t pt_show(const uint64_t head[PT_HEAD_WORDS], int64_t answer[PT_ANSWER_CELLS], const uint64_t *slots, size_t slots_len,
                 const uint8_t *payloads, size_t payloads_len, uint32_t number);

/* Refuses 1. Answers ROOM: how many slots are free. */
uint32_t pt_buffer_available(const uint64_t head[PT_HEAD_WORDS], int64_t answer[PT_ANSWER_CELLS]);

/* The four calls that count, with the counters behind the head; the other calls count nothing. Refusals, answers and the rest
 * are those of the call of the same name. The counters may hold any values. */
uint32_t pt_counted_handle_data_packet(uint64_t head[PT_HEAD_WORDS], uint64_t counters[PT_COUNTERS],
                                       int64_t answer[PT_ANSWER_CELLS], uint64_t *slots, size_t slots_len, uint8_t *payloads,
                                       size_t payloads_len, int64_t now, uint32_t number, uint32_t message, uint32_t location,
                                       uint32_t stamp, const uint8_t *payload, size_t payload_len);

uint32_t pt_counted_handle_ack2_packet(uint64_t head[PT_HEAD_WORDS], uint64_t counters[PT_COUNTERS],
                                       int64_t answer[PT_ANSWER_CELLS], const uint64_t *history, size_t history_len, int64_t now,
                                       uint32_t number);

uint32_t pt_counted_handle_drop_request(const uint64_t head[PT_HEAD_WORDS], uint64_t counters[PT_COUNTERS],
                                        int64_t answer[PT_ANSWER_CELLS], uint64_t *slots, size_t slots_len, uint32_t first,
                                        uint32_t last);

uint32_t pt_counted_synchronize_clock(uint64_t head[PT_HEAD_WORDS], uint64_t counters[PT_COUNTERS],
                                      int64_t answer[PT_ANSWER_CELLS], int64_t now, uint32_t stamp);

#ifdef __cplusplus
}
#endif

/* The variance that UNSTEADY answers, from its bits. */
static inline double pt_variance(const int64_t answer[PT_ANSWER_CELLS]) {
    double variance;
    memcpy(&variance, &answer[9], sizeof variance);
    return variance;
}

#endif
