/* A collector's loop in C, run on a recorded pass: collector PASS.dlt
 *
 * The recording stands for the network and the timers of a station (its format: docs/01-scope.md, "Trace, mark DLT"). Kinds 1, 5, 6
 * and 7 came off the wire; 2, 3, 4 and 8 are the moments at which the station asked for a message, a loss report, a full ACK, or
 * gave up. Each record is one call, and what came of it is one line, in 01's words; `got` and `none` are left out. At the end
 * stand the room and the counters. collector.rs is the same in Rust, and writes the same lines.
 *
 * A late drop discards packets that had arrived; they are rescued here and shown. The clock calls are those of the
 * recording: a station has to make them itself, or it loses data (include/pursethistle.h). long_pass.c has the loop of
 * a live station. */
#include <inttypes.h>
#include <stdio.h>
#include <string.h>
#include "pursethistle.h"

/* All the memory of one receiver. A recording has at most 32 slots; the library takes up to PT_CAPACITY_MAX. */
#define CAPACITY 32
#define SLOTS PT_SLOTS_LEN(CAPACITY)
#define PAYLOADS PT_PAYLOADS_LEN(CAPACITY)
static uint64_t head[PT_HEAD_WORDS], before[PT_HEAD_WORDS]; /* the head, and that from before the last pop */
static uint64_t counters[PT_COUNTERS], slots[SLOTS], history[PT_HISTORY_WORDS];
static uint8_t payloads[PAYLOADS], output[PAYLOADS], payload[PT_PAYLOAD_BYTES];
static uint32_t words[CAPACITY];
static int64_t answer[PT_ANSWER_CELLS];

/* The recording. */
static FILE *file;
static bool cut; /* it ended within a record */

/* The next number of so many bytes, big-endian. */
static uint64_t number(int bytes) {
    uint64_t value = 0;
    while (bytes-- > 0) {
        int byte = getc(file);
        cut = cut || byte == EOF;
        value = value << 8 | (byte & 0xff);
    }
    return value;
}

/* One call. f has the record's fields; now is the first, where the kind has one. Returns 0 or the refusal's number. */
static uint32_t call(int kind, const uint64_t f[6]) {
    int64_t now = (int64_t)f[0];
    switch (kind) {
    case 1:
        return pt_counted_handle_data_packet(head, counters, answer, slots, SLOTS, payloads, PAYLOADS, now, (uint32_t)f[1],
                                             (uint32_t)f[2], (uint32_t)f[3], (uint32_t)f[4], payload, f[5]);
    case 2:
        memcpy(before, head, sizeof head);
        return pt_pop_next_message(head, answer, slots, SLOTS, payloads, PAYLOADS, output, PAYLOADS, now);
    case 3:
        return pt_on_nak_event(head, answer, slots, SLOTS, words, CAPACITY, now);
    case 4:
        return pt_on_full_ack_event(head, answer, history, PT_HISTORY_WORDS, now);
    case 5:
        return pt_counted_handle_ack2_packet(head, counters, answer, history, PT_HISTORY_WORDS, now, (uint32_t)f[1]);
    case 6:
        return pt_counted_handle_drop_request(head, counters, answer, slots, SLOTS, (uint32_t)f[0], (uint32_t)f[1]);
    case 7:
        return pt_counted_synchronize_clock(head, counters, answer, now, (uint32_t)f[1]);
    default:
        return pt_clear(head, answer);
    }
}

/* A repeat: are the bytes that came the ones that are held? */
static void tell_repeat(uint32_t repeated, size_t length) {
    int64_t shown[PT_ANSWER_CELLS];
    if (pt_show(head, shown, slots, SLOTS, payloads, PAYLOADS, repeated) != 0 || shown[0] != PT_WORD_RECEIVED)
        puts("  it was given up");
    else if ((size_t)shown[2] == length && memcmp(payloads + shown[1], payload, length) == 0)
        puts("  the same bytes are held");
    else
        puts("  other bytes are held");
}

/* Bytes as text, to the end of the line. */
static void tell_text(const uint8_t *bytes, int64_t length) {
    for (int64_t i = 0; i < length; i++)
        putchar(bytes[i] >= ' ' && bytes[i] <= '~' ? bytes[i] : '.');
    putchar('\n');
}

/* A late drop discarded these numbers. Those that had arrived are shown by the head from before the pop: a pop writes
 * no area, so their bytes are there until the next data packet. */
static void tell_rescued(uint32_t first, uint32_t end) {
    int64_t shown[PT_ANSWER_CELLS];
    for (uint32_t late = first; late != end; late = (late + 1) & 0x7fffffff)
        if (pt_show(before, shown, slots, SLOTS, payloads, PAYLOADS, late) == 0 && shown[0] == PT_WORD_RECEIVED) {
            printf("  rescued %" PRIu32 " ", late);
            tell_text(payloads + shown[1], shown[2]);
        }
}

/* What a call answered: 01's word and so many values. */
static void tell(int record, uint32_t refusal) {
    static const struct { const char *word; int values; } said[] = {
        {"got", 2}, {"light", 2}, {"loss", 2}, {"refused", 0}, {"message", 3}, {"late", 3}, {"report", 0}, {"ack", 8},
        {"rtt", 2}, {"gone", 1}, {"adjusted", 2}, {"unsteady", 1}, {"clear", 0}, {"none", 0}};
    int values = said[answer[0]].values;
    if (answer[0] == PT_WORD_GOT || answer[0] == PT_WORD_NONE)
        return;
    printf("%d %s", record, said[answer[0]].word);
    if (refusal != 0)
        printf(" %" PRIu32, refusal);
    if (refusal == PT_PACKET_TOO_EARLY)
        values = 2; /* the room, and the room that it needs */
    for (int i = 1; i <= values; i++) {
        if (answer[0] == PT_WORD_ACK && i > 5 && answer[i] == PT_NO_RATE)
            printf(" -");
        else
            printf(" %" PRId64, answer[i]);
    }
    for (int i = 0; answer[0] == PT_WORD_REPORT && i < answer[1]; i++)
        printf(" %" PRIu32, words[i]);
    putchar('\n');
    if (answer[0] == PT_WORD_UNSTEADY)
        printf("  variance %.3f\n", pt_variance(answer));
    if (answer[0] == PT_WORD_MESSAGE) {
        printf("  ");
        tell_text(output, answer[2]);
    }
    if (answer[0] == PT_WORD_LATE)
        tell_rescued((uint32_t)answer[1], (uint32_t)answer[2]);
}

/* A file cannot be read or written. */
static int fail(const char *name) {
    perror(name);
    return 2;
}

/* A bad header or record; or the bytes are missing because the file could not be read. */
static int bad(const char *name, long at) {
    if (ferror(file))
        return fail(name);
    printf("bad %ld\n", at);
    return 1;
}

int main(int argc, char **argv) {
    static const char *const counted[] = {"rx_data", "rx_bytes", "rx_unique_data", "rx_unique_bytes", "rx_retransmit_data",
        "rx_dropped_data", "rx_dropped_bytes", "rx_ack2", "rx_ack2_errors", "rx_clock_adjustments"};
    /* The bytes of each field, by kind. */
    static const char *const fields[] = {"", "844142", "8", "8", "8", "84", "44", "84", ""};

    if (argc != 2) {
        fprintf(stderr, "usage: collector PASS.dlt\n");
        return 2;
    }
    if ((file = fopen(argv[1], "rb")) == NULL)
        return fail(argv[1]);
    uint64_t mark = number(5);
    int64_t start = (int64_t)number(8);
    uint32_t latency = (uint32_t)number(4);
    uint64_t late_drop = number(1);
    uint32_t first = (uint32_t)number(4);
    size_t capacity = number(2);
    if (cut || mark != 0x444c540001 || late_drop > 1 || capacity > CAPACITY ||
        pt_new(head, answer, start, latency, late_drop, first, capacity) != 0)
        return bad(argv[1], 0);
    for (int record = 1, kind; (kind = getc(file)) != EOF; record++) {
        long at = ftell(file) - 1;
        uint64_t f[6] = {0};
        bool known = kind >= 1 && kind <= 8;
        for (int i = 0; known && fields[kind][i] != 0; i++)
            f[i] = number(fields[kind][i] - '0');
        if (!known || cut || f[5] > PT_PAYLOAD_BYTES || fread(payload, 1, f[5], file) != f[5])
            return bad(argv[1], at);
        uint32_t refusal = call(kind, f);
        tell(record, refusal);
        if (refusal == PT_DISCARDED_DUPLICATE)
            tell_repeat((uint32_t)f[1], f[5]);
    }
    if (ferror(file))
        return fail(argv[1]);
    pt_buffer_available(head, answer);
    printf("room %" PRId64 "\n", answer[1]);
    for (int i = 0; i < PT_COUNTERS; i++)
        printf("%s %" PRIu64 "\n", counted[i], counters[i]);
    return fflush(stdout) == 0 ? 0 : fail("standard output");
}
