/* Every function of the archives, over its parts: document 01's session of four packets is written as a capture, read again, and judged by
 * packets and by frames in turn. What it has to print follows from the documents, and stands in .ci/run.
 *   tools/archives
 *   cc -Iinclude examples/parts.c target/staticlib/libembed.a target/staticlib/libembed_why.a -o parts && ./parts */
#include "spritgrommet.h"

#include <stdio.h>
#include <string.h>

enum { RECORDS = 4096, ENTRIES = 1024, PACKET = 40, FRAME = 14 + PACKET, ROOM = 24 + 4 * (16 + FRAME), TCP = 6, UDP = 17 };
enum { SYN = 2, RST = 4, ACK = 16 };

static const uint8_t cell[] = {10, 0, 0, 0, 8};
static const uint8_t plant[] = {192, 168, 0, 0, 16};
static const uint8_t machine[] = {10, 0, 0, 1, 156, 64}; /* an address, and port 40000 */
static const uint8_t neighbour[] = {10, 0, 0, 2, 0, 80};
static const uint8_t server[] = {192, 168, 0, 1, 0, 80};

static uint8_t records[RECORDS], room[ROOM];
static uint32_t tags[ENTRIES], the_clock;
static int16_t counts[ENTRIES];
static struct spritgrommet_limits limits;
static struct spritgrommet_placing placing;

/* An Ethernet frame with a packet between two ends, whose header for UDP is that for TCP. */
static void make_frame(uint8_t *frame, uint8_t protocol, const uint8_t *from, const uint8_t *to, uint8_t flags) {
    memset(frame, 0, FRAME);
    frame[12] = 8;
    frame[14] = 0x45;
    frame[17] = PACKET;
    frame[23] = protocol;
    memcpy(frame + 26, from, 4);
    memcpy(frame + 30, to, 4);
    memcpy(frame + 34, from + 4, 2);
    memcpy(frame + 36, to + 4, 2);
    frame[46] = 0x50;
    frame[47] = flags;
}

static void start(void) {
    struct spritgrommet_settings settings = spritgrommet_factory();
    struct spritgrommet_started started =
        spritgrommet_cold_start(settings, records, RECORDS, tags, ENTRIES, counts, ENTRIES, &the_clock, 100);
    limits = settings.limits;
    placing = started.placing;
    printf("start %d\n", started.refusal);
}

/* Why a reset that belongs to nothing would be dropped, as a packet and in its frame. */
static void ask(void) {
    uint8_t frame[FRAME];
    struct spritgrommet_reason by_packet, by_frame;
    make_frame(frame, TCP, machine, server, RST);
    by_packet = spritgrommet_why(placing, cell, sizeof cell, plant, sizeof plant, records, RECORDS, tags, ENTRIES, counts, ENTRIES, &the_clock,
                                 limits, 100, frame + 14, PACKET);
    by_frame = spritgrommet_why_frame(placing, cell, sizeof cell, plant, sizeof plant, records, RECORDS, tags, ENTRIES, counts, ENTRIES,
                                      &the_clock, limits, 100, frame, FRAME);
    printf("why %d %d\n", by_packet.verdict, by_frame.verdict);
}

static size_t put(size_t at, uint8_t protocol, const uint8_t *from, const uint8_t *to, uint8_t flags) {
    uint8_t frame[FRAME];
    make_frame(frame, protocol, from, to, flags);
    return spritgrommet_put_record(room, ROOM, at, 100, 0, FRAME, frame, FRAME).next;
}

static void write_session(void) {
    size_t at = spritgrommet_put_header(room, ROOM, 0).next;
    at = put(at, TCP, machine, server, SYN);
    at = put(at, TCP, server, machine, SYN + ACK);
    at = put(at, TCP, machine, server, ACK);
    at = put(at, UDP, machine, neighbour, 0);
    printf("written %d\n", (int)at);
}

/* By the frame, and by the packet in it. */
static struct spritgrommet_answer judge(const struct spritgrommet_record *record, int by_frame) {
    const uint8_t *frame = room + record->from;
    return by_frame ? spritgrommet_judge_frame(placing, cell, sizeof cell, plant, sizeof plant, records, RECORDS, tags, ENTRIES, counts,
                                               ENTRIES, &the_clock, limits, record->seconds, frame, record->captured)
                    : spritgrommet_judge(placing, cell, sizeof cell, plant, sizeof plant, records, RECORDS, tags, ENTRIES, counts, ENTRIES,
                                         &the_clock, limits, record->seconds, frame + 14, record->captured - 14);
}

static void judge_session(void) {
    struct spritgrommet_cursor cursor = spritgrommet_open(room, ROOM).cursor;
    struct spritgrommet_tally tally = {{0}};
    struct spritgrommet_next next;
    int number = 0;
    while ((next = spritgrommet_next(room, ROOM, cursor)).whole) {
        struct spritgrommet_answer answer = judge(&next.record, number % 2);
        spritgrommet_tally(&tally, answer);
        printf("%d %d %d\n", ++number, answer.verdict, answer.count);
        cursor.at = next.record.end;
    }
    for (number = 0; number < 7; number++) printf(number < 6 ? "%d " : "%d\n", (int)tally.totals[number]);
}

static void print_winner(uint32_t address) {
    struct spritgrommet_winner winner = spritgrommet_winner(cell, sizeof cell, plant, sizeof plant, address);
    printf("winner %d %d\n", winner.side, (int)winner.number);
}

int main(void) {
    start();
    ask();
    write_session();
    judge_session();
    printf("pass %d", spritgrommet_pass(placing, records, RECORDS, tags, ENTRIES, counts, ENTRIES, &the_clock, limits, 160));
    printf(" %d\n", (int)the_clock);
    print_winner(0x0A000001);
    print_winner(0xC0A80001);
    print_winner(0x08080808);
    printf("E %x %x\n", (unsigned)spritgrommet_encrypt(placing.keys, 0xFFFFFFFF), (unsigned)spritgrommet_decrypt(placing.keys, 0x99999999));
    return 0;
}
