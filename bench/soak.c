/* One receiver of the library, more packets than there are sequence numbers: each packet carries its index, every hundredth is lost at
 * first and comes later, some come twice, all are popped; order, bytes, release times, answers and counters are checked on the way.
 *   soak [PACKETS [FIRST]]      PACKETS: 2^31 + 2^20 unless given; FIRST: the first sequence number, 0 unless given */
#include <inttypes.h>
#include <stdbool.h>
#include <stddef.h>
#include <stdint.h>
#include <stdio.h>
#include <stdlib.h>
#include <string.h>
#include <time.h>

#include "pursethistle.h"

enum { HEAD = PT_HEAD_WORDS, CELLS = PT_ANSWER_CELLS, COUNTERS = PT_COUNTERS, CAPACITY = 1024, SLOT = PT_SLOT_WORDS };
enum { PAYLOAD = PT_PAYLOAD_BYTES, HISTORY = PT_HISTORY_WORDS, PACE = 3 };
static uint64_t head[HEAD], counters[COUNTERS], slots[SLOT * CAPACITY], history[HISTORY];
static int64_t answer[CELLS];
static uint8_t payloads[PAYLOAD * CAPACITY];

static const uint64_t WIDTH = UINT64_C(1) << 31;
static uint64_t packets, first, losses, recoveries, messages, repeats, late, acks, adjustments;
/* The index behind the newest packet, and the index that is to be acknowledged. */
static uint64_t expected, acknowledged;
static int waiting;

static void fail(const char *what, uint64_t index, uint32_t refusal) {
    printf("wrong: %s at index %" PRIu64 ": refusal %" PRIu32 ", answer", what, index, refusal);
    for (int i = 0; i < CELLS; i++) printf(" %" PRId64, answer[i]);
    printf("\n");
    exit(1);
}

/* The packet of an index: a packet each PACE microseconds, so that stamps wrap too; its payload is its index. */
static uint32_t push(uint64_t index, int64_t now) {
    uint8_t bytes[8];
    for (int i = 0; i < 8; i++) bytes[i] = (uint8_t)(index >> (8 * i));
    return pt_counted_handle_data_packet(head, counters, answer, slots, SLOT * CAPACITY, payloads, PAYLOAD * CAPACITY, now,
                                         (uint32_t)((first + index) % WIDTH), (uint32_t)(index % (1u << 26)), 3,
                                         (uint32_t)(PACE * index), bytes, 8);
}

static void check_got(uint64_t index, uint32_t refusal, int recovered) {
    if (refusal != 0 || (answer[0] != PT_WORD_GOT && answer[0] != PT_WORD_LIGHT) || answer[2] != recovered) fail("push", index, refusal);
    if (answer[1] != (int64_t)((first + acknowledged) % WIDTH)) fail("number to acknowledge", index, refusal);
}

static void append(uint64_t index, int64_t now) {
    uint32_t refusal = push(index, now);
    int gap = index != expected;
    expected = index + 1;
    if (gap) {
        /* Only the packet right before it is missing. */
        int64_t before = (int64_t)((first + index - 1) % WIDTH);
        if (refusal != 0 || answer[0] != PT_WORD_LOSS || answer[1] != before || answer[2] != before) fail("loss", index, refusal);
        losses++;
        waiting = 1;
        return;
    }
    if (!waiting) acknowledged = expected;
    check_got(index, refusal, 0);
}

static void recover(uint64_t index, int64_t now) {
    uint32_t refusal = push(index, now);
    waiting = 0;
    acknowledged = expected;
    check_got(index, refusal, 1);
    recoveries++;
}

/* A packet that was there already: still held, or gone out. */
static void repeat(uint64_t index, int64_t now) {
    uint32_t refusal = push(index, now);
    if (refusal != (index < messages ? PT_PACKET_TOO_LATE : PT_DISCARDED_DUPLICATE)) fail("repeat", index, refusal);
    late += refusal == PT_PACKET_TOO_LATE;
    repeats++;
}

/* Pops once; the message must be the next index, whole and at its own time. */
static int pop(int64_t now) {
    uint8_t output[8];
    uint32_t refusal =
        pt_pop_next_message(head, answer, slots, SLOT * CAPACITY, payloads, PAYLOAD * CAPACITY, output, sizeof output, now);
    if (refusal != 0) fail("pop", messages, refusal);
    if (answer[0] == PT_WORD_NONE) return 0;
    uint64_t index = 0;
    for (int i = 0; i < 8; i++) index |= (uint64_t)output[i] << (8 * i);
    if (answer[0] != PT_WORD_MESSAGE || answer[2] != 8 || answer[3] != 1) fail("pop", messages, refusal);
    if (answer[1] != (int64_t)(PACE * messages)) fail("release time", messages, refusal);
    if (index != messages) fail("order or bytes", messages, refusal);
    messages++;
    return 1;
}

/* A full ACK and its ACK2, so that the history moves on. */
static void acknowledge(int64_t now) {
    uint32_t refusal = pt_on_full_ack_event(head, answer, history, HISTORY, now);
    if (refusal != 0) fail("ack", messages, refusal);
    if (answer[0] != PT_WORD_ACK) return;
    acks++;
    if ((uint64_t)answer[1] != acks) fail("ack number", messages, refusal);
    refusal = pt_handle_ack2_packet(head, answer, history, HISTORY, now, (uint32_t)acks);
    if (refusal != 0 || answer[0] != PT_WORD_RTT) fail("ack2", messages, refusal);
}

/* A clock sample without drift: each thousand of them moves the reference on, which keeps the stamps near it. */
static void synchronize(int64_t now) {
    uint32_t refusal = pt_synchronize_clock(head, answer, now, (uint32_t)now);
    if (refusal != 0 || (answer[0] != PT_WORD_NONE && answer[0] != PT_WORD_ADJUSTED) || answer[1] != 0 || answer[2] != 0)
        fail("clock", messages, refusal);
    adjustments += answer[0] == PT_WORD_ADJUSTED;
}

static double seconds(void) {
    struct timespec t;
    clock_gettime(CLOCK_MONOTONIC, &t);
    return (double)t.tv_sec + 1e-9 * (double)t.tv_nsec;
}

/* Indices that are lost at first; each comes 40 packets later. */
static int lost_first(uint64_t index) { return index % 100 == 57 && index + 41 < packets; }

/* A word that is all digits, as a number. */
static uint64_t number(const char *word) {
    if (*word == 0 || word[strspn(word, "0123456789")] != 0) {
        fprintf(stderr, "bench/soak [PACKETS [FIRST]]: '%s' is not a number\n", word);
        exit(2);
    }
    return strtoull(word, NULL, 10);
}

int main(int argc, char **argv) {
    packets = argc > 1 ? number(argv[1]) : WIDTH + (UINT64_C(1) << 20);
    first = argc > 2 ? number(argv[2]) : 0;
    double begun = seconds(), last = begun;
    if (pt_new(head, answer, 0, 0, false, (uint32_t)first, CAPACITY) != 0) fail("making", 0, 15);
    printf("%" PRIu64 " packets from number %" PRIu64 "\n", packets, first);
    for (uint64_t index = 0; index < packets; index++) {
        int64_t now = (int64_t)(PACE * index);
        if (!lost_first(index)) append(index, now);
        if (index >= 40 && lost_first(index - 40)) recover(index - 40, now);
        /* All that is whole goes out, and nothing else. */
        while (messages < acknowledged)
            if (!pop(now)) fail("nothing popped", messages, 0);
        if ((waiting || index % 100 == 0) && pop(now)) fail("popped too much", messages, 0);
        if (index % 1000 == 80 || index % 1000 == 500) repeat(index, now);
        if (index % 64 == 63) acknowledge(now);
        if (index % 1000 == 999) synchronize(now);
        if (index % (1 << 27) == (1 << 27) - 1) {
            double t = seconds();
            printf("%" PRIu64 " packets, %.0f s, %.1f ns each\n", index + 1, t - begun, 1e9 * (t - last) / (1 << 27));
            fflush(stdout);
            last = t;
        }
    }
    uint64_t next = (first + packets) % WIDTH;
    if (messages != packets || losses != recoveries || waiting || losses < packets / 100 - 1) fail("count", packets, 0);
    if (head[3] != 0 || head[4] != next || head[5] != next) fail("where it ends", packets, 0);
    uint64_t all = packets + repeats, unique = packets - recoveries;
    uint64_t wanted[COUNTERS] = {all, 24 * all, unique, 24 * unique, recoveries, late, 24 * late, 0, 0, 0};
    for (int i = 0; i < COUNTERS; i++)
        if (counters[i] != wanted[i]) fail("counters", packets, 0);
    printf("%" PRIu64 " packets, %" PRIu64 " losses, %" PRIu64 " recoveries, %" PRIu64 " messages in order with their bytes, %" PRIu64
           " repeats refused, %" PRIu64 " full ACKs, %" PRIu64 " clock adjustments, %" PRIu64 " wraps, %.1f seconds\n",
           packets, losses, recoveries, messages, repeats, acks, adjustments, (first + packets) / WIDTH, seconds() - begun);
    return 0;
}
