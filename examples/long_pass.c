/* A station's loop in C, tried over a long pass: long_pass [--no-clock]
 *
 * This is the loop to copy. It hands in clock samples, pops until nothing is due, rescues what a late drop discards,
 * asks for ACKs and loss reports, and compares every byte that comes out. docs/COLLECTING.md explains each step.
 * A made-up sender takes the place of the network: 150 minutes, a packet each 100 ms, over two turns of the 32-bit
 * stamp and over the wrap of the sequence number. Packets 50, 150, 250 and so on are lost, and come again 30 ms after
 * the gap is seen, which is in time. Packets 75, 1075, 2075 and so on come again 300 ms after it, which is too late.
 * The figures are written at the end. With --no-clock it makes no clock call: from 35 min 47 s on nothing is recovered.
 * long_pass.rs is the same in Rust, and writes the same. */
#include <stdio.h>
#include <string.h>
#include "pursethistle.h"

/* Times are microseconds. Two turns of the stamp take 143 min 10 s. */
#define LATENCY 120000
#define SPACING 100000
#define TICK 10000
#define SECOND 1000000
#define PACKETS 90000
#define START 1000000000              /* the reading that belongs to the sender's stamp 0 */
#define FIRST (2147483648u - 45000)   /* so the number wraps half way */
#define HALF_TURN 2147483648          /* 2^31: 35 min 47 s */

#define CAPACITY 32
#define SLOTS PT_SLOTS_LEN(CAPACITY)
#define PAYLOADS PT_PAYLOADS_LEN(CAPACITY)
static uint64_t head[PT_HEAD_WORDS], before[PT_HEAD_WORDS], counters[PT_COUNTERS];
static uint64_t slots[SLOTS], history[PT_HISTORY_WORDS];
static uint8_t payloads[PAYLOADS], output[PAYLOADS];
static uint32_t words[CAPACITY];
static int64_t answer[PT_ANSWER_CELLS];

/* What has become of each packet, and the figures. */
static bool settled[PACKETS];
static long lost, recovered_before, recovered_after, released, early, late, rescued, too_late, wrong;
static long samples, acks, reports;
static uint32_t unanswered; /* the number of the last ACK, until its ACK2 comes */

/* The packet with this sequence number. */
static long packet_of(int64_t number) {
    return (long)((number - FIRST) & 0x7fffffff);
}

/* The bytes of a packet. */
static size_t payload_of(long packet, char text[32]) {
    return (size_t)sprintf(text, "packet %ld", packet);
}

/* When a packet comes, from the start on: at its time, or sent again after the next one showed the gap. */
static int64_t comes(long packet) {
    int64_t time = (int64_t)packet * SPACING;
    if (packet % 100 == 50)
        return time + SPACING + 30000;
    if (packet % 1000 == 75)
        return time + SPACING + 300000;
    return time;
}

/* These bytes came out for this packet. Each packet must come out once, with its own bytes. */
static void keep(long packet, const uint8_t *bytes, int64_t length) {
    char text[32];
    size_t size = payload_of(packet, text);
    if (packet >= PACKETS || settled[packet] || (size_t)length != size || memcmp(bytes, text, size) != 0)
        wrong++;
    else
        settled[packet] = true;
}

/* A refusal that this pass has no place for. */
static void refused(uint32_t refusal) {
    if (refusal != 0)
        wrong++;
}

/* Moves the receiver's reference on. The stamp is the station's own time since the start, mod 2^32: no drift. */
static void sample_clock(int64_t now) {
    refused(pt_counted_synchronize_clock(head, counters, answer, now, (uint32_t)(now - START)));
    samples++;
}

/* A packet comes. One that is refused as too late is still in the caller's hands, and is kept. */
static void take(int64_t now, long packet) {
    char text[32];
    size_t size = payload_of(packet, text);
    int64_t stamp = (int64_t)packet * SPACING;
    uint32_t refusal = pt_counted_handle_data_packet(
        head, counters, answer, slots, SLOTS, payloads, PAYLOADS, now, (uint32_t)(FIRST + packet) & 0x7fffffff,
        (uint32_t)packet & 0x3ffffff, PT_FIRST | PT_LAST, (uint32_t)stamp, (const uint8_t *)text, size);
    if (refusal == PT_PACKET_TOO_LATE) {
        too_late++;
        keep(packet, (const uint8_t *)text, (int64_t)size);
        return;
    }
    refused(refusal);
    if (answer[0] == PT_WORD_LOSS) {
        lost += (answer[2] - answer[1] + 1) & 0x7fffffff;
        reports++; /* to be sent at once */
    } else if (answer[2] == 1 && stamp < HALF_TURN)
        recovered_before++;
    else if (answer[2] == 1)
        recovered_after++;
}

/* A late drop discarded these numbers. The head from before the pop still finds those that had come. */
static void rescue(uint32_t first, uint32_t end) {
    for (uint32_t number = first; number != end; number = (number + 1) & 0x7fffffff) {
        refused(pt_show(before, answer, slots, SLOTS, payloads, PAYLOADS, number));
        if (answer[0] == PT_WORD_RECEIVED) {
            rescued++;
            keep(packet_of(number), payloads + answer[1], answer[2]);
        }
    }
}

/* Pops until nothing is due. */
static void release(int64_t now) {
    static long next; /* the packet in front */
    for (;;) {
        memcpy(before, head, sizeof head);
        refused(pt_pop_next_message(head, answer, slots, SLOTS, payloads, PAYLOADS, output, PAYLOADS, now));
        if (answer[0] == PT_WORD_MESSAGE) {
            if (now < START + (int64_t)next * SPACING + LATENCY)
                early++;
            keep(next, output, answer[2]);
            next += answer[3];
            released++;
        } else if (answer[0] == PT_WORD_LATE) {
            next = packet_of(answer[2]);
            late++;
            rescue((uint32_t)answer[1], (uint32_t)answer[2]);
        } else
            return;
    }
}

/* Asks for the full ACK, each 10 ms. Its ACK2 comes 10 ms later here. */
static void acknowledge(int64_t now) {
    if (unanswered != 0)
        refused(pt_counted_handle_ack2_packet(head, counters, answer, history, PT_HISTORY_WORDS, now, unanswered));
    unanswered = 0;
    refused(pt_on_full_ack_event(head, answer, history, PT_HISTORY_WORDS, now));
    if (answer[0] == PT_WORD_ACK) {
        unanswered = (uint32_t)answer[1];
        acks++;
    }
}

/* Asks for the loss report, each 20 ms. */
static void report_losses(int64_t now) {
    refused(pt_on_nak_event(head, answer, slots, SLOTS, words, CAPACITY, now));
    if (answer[0] == PT_WORD_REPORT)
        reports++;
}

int main(int argc, char **argv) {
    bool clock = argc < 2;
    if (argc > 2 || (argc == 2 && strcmp(argv[1], "--no-clock") != 0)) {
        fprintf(stderr, "usage: long_pass [--no-clock]\n");
        return 2;
    }
    if (pt_new(head, answer, START, LATENCY, true, FIRST, CAPACITY) != 0)
        return 1;
    /* A second more than the pass, so that all comes out. */
    for (int64_t time = 0; time < (int64_t)PACKETS * SPACING + SECOND; time += TICK) {
        int64_t now = START + time;
        if (clock && time % SECOND == 0)
            sample_clock(now); /* the first one before the first packet */
        for (long packet = (long)(time / SPACING) - 4; packet <= time / SPACING; packet++)
            if (packet >= 0 && packet < PACKETS && comes(packet) == time)
                take(now, packet);
        release(now);
        acknowledge(now);
        if (time % (2 * TICK) == 0)
            report_losses(now);
    }
    long missing = 0;
    for (long packet = 0; packet < PACKETS; packet++)
        missing += !settled[packet];
    printf("packets %d\nlost %ld\n", PACKETS, lost);
    printf("recovered_before_half_turn %ld\nrecovered_after_half_turn %ld\n", recovered_before, recovered_after);
    printf("released %ld\nearly %ld\nlate %ld\nrescued %ld\n", released, early, late, rescued);
    printf("too_late %ld\nmissing %ld\nwrong %ld\n", too_late, missing, wrong);
    printf("samples %ld\nadjustments %ld\n", samples, (long)counters[PT_RX_CLOCK_ADJUSTMENTS]);
    printf("acks %ld\nreports %ld\n", acks, reports);
    return fflush(stdout) == 0 && wrong == 0 ? 0 : 1;
}
