/* The gateway for programs in C and C++: link target/staticlib/libembed.a, which `tools/archives` proves and writes. Who asks why a packet is
 * dropped (`spritgrommet_why` and what is made of it) also links libembed_why.a beside it.
 *
 * A gateway stands between a cell, which may be infected, and the plant. It judges each packet, and stops a machine of the cell that
 * keeps trying strangers. The caller owns all memory: settings, two side lists, the tables, the clock, and what a start answers for the
 * later calls (`struct spritgrommet_placing`). A call that is refused changes none of it. Nothing is allocated, and no state is kept between calls: memory that is only read may be shared, and memory that a call
 * writes may be touched by no other thread meanwhile.
 *
 * What each call answers is proved for every input of the types below. What the prover cannot see is the caller's side of the boundary:
 * each pointer is aligned for its elements and leads to as many as the length beside it says, what is written overlaps nothing else that
 * the call is lent, and none is null (a length of 0 needs a pointer too, to anything). The archives are for Linux on x86-64, level v2
 * (which has SSE4.2); use the header that stands beside it.
 *
 * Refusals: 0 where the call is not refused, and else
 *   1  a setting is outside its range
 *   2  a table size isn't one that there may be, or the tag and count lists differ in length
 *   3  a side list's length isn't a multiple of 5, it has over 64 entries, or a prefix length is over 32
 *   4  the time is before the gateway's clock
 *   5  the header bytes end too soon
 *   6  the IP version isn't 4, header length below 5 words, or total length below header length
 *   7  capture header: short, magic not a1b2c3d4 in either byte order, version not 2.4, or link type not 1
 *   8  capture record cut off, or over 2,048 captured bytes
 *   9  writing a capture: the header or the record needs more room than is left
 * A call tests in rising number those for which it has an input, but header tests have their own order: fewer than 20 bytes, 5; then 6;
 * then bytes fewer than the header length, 5; then transport. For frames, see `spritgrommet_gateway_judge_frame`.
 *
 * Standing inline. A program that forwards frames between cell and plant by these answers has three things to see to itself, or it can be
 * walked around:
 *   - Sides are told by addresses alone. A machine of the cell that sends packets with a plant address as their source is taken for the
 *     plant: it marks connections as answered, and so earns itself credit. Let a frame in only if its source address belongs to the side
 *     that it came from: `spritgrommet_winner` tells, 1 for what comes in from the cell and 2 for what comes in from the plant. Drop any
 *     other, and do not show it to the gateway.
 *   - Verdict 0 says that a packet is not between cell and plant, or that a frame is not plain IPv4. It is no leave to forward: behind it
 *     go 802.1Q-tagged frames (also with VLAN 0, which many systems take as untagged), IPv6, ARP and every other EtherType, from blocked
 *     machines too; and so do IPv4 packets to addresses of neither list, as broadcast and multicast ones, which may reach every machine of
 *     the plant. Decide on all of these by yourself, before you forward any; where you have no rule for one, drop it.
 *   - What is refused was not judged. Hold it back.
 */
#ifndef SPRITGROMMET_H
#define SPRITGROMMET_H

#include <stdbool.h>
#include <stddef.h>
#include <stdint.h>

#ifdef __cplusplus
extern "C" {
#endif

/* ---- the structs that cross. What stands here and in the next part tools/boundary declares; only the comments are written by hand ---- */

/* The settings that have a range, which every call of a gateway takes; outside it the call is refused by 1. Each call goes by those that it
 * is given. What is promised of a run (docs/PROMISES.md, demand 3) is promised where limits, side lists and sizes stay as they are from its
 * start on. */
struct spritgrommet_limits {
    uint16_t threshold; /* T, 1 to 255: an address is blocked when its count is at least this */
    int16_t floor;      /* Cmin, -1,000 to 0: no credit lowers a count below this */
    uint16_t dmiss;     /* Dmiss, 1 to 3,600 seconds: at each multiple every positive count falls by one */
    uint8_t dconn;      /* Dconn, 1 to 62 minutes: a connection record lives over so many minute boundaries */
};

/* All settings. `spritgrommet_factory` has the factory's. A cold start alone takes the keys: afterwards a gateway runs on those that it
 * started with, `struct spritgrommet_placing`. */
struct spritgrommet_settings {
    uint32_t keys[8]; /* the round keys of the address permutation; with the factory's zeros anyone can aim at a slot */
    struct spritgrommet_limits limits;
};

/* What places packets in a gateway's tables. It belongs to them as the clock does: a start answers it, and every later call takes it. */
struct spritgrommet_placing {
    uint32_t keys[8]; /* the round keys of the address permutation */
};

/* What a start answers. Where it is refused there is no placing, and its numbers are 0: tables and clock are as they were, and belong to the
 * one before. */
struct spritgrommet_started {
    uint8_t refusal;                     /* 0, or the number of the refusal */
    struct spritgrommet_placing placing; /* the settings' keys, on which the gateway runs from then on */
};

/* The answer to a packet. A number that it does not have is 0. */
struct spritgrommet_answer {
    uint8_t refusal;  /* 0, or the number of the refusal, and then there is nothing else */
    uint8_t verdict;  /* 0 not ours. 1 forwarded, nothing counted. 2 forwarded, credit of one. 3 forwarded, credit of two.
                         4 forwarded, fresh contact. 5 dropped, hygiene. 6 dropped, blocked. */
    int16_t count;    /* the cell address's count after it; verdict 0 has none */
    uint8_t replaced; /* 1 where an address lost its entry to this packet's */
    uint32_t address; /* that address */
};

/* The entry of the side lists that decides on an address. */
struct spritgrommet_winner {
    uint8_t side;  /* 1: it stands in the cell list. 2: in the plant list. 0: neither holds the address. */
    size_t number; /* which entry of that list, from 1: its five bytes start 5 * (number - 1) into it; 0 where neither holds the address */
};

/* A tally: one total for each verdict, 0 to 6, that stops at 4,294,967,295. */
struct spritgrommet_tally {
    uint32_t totals[7];
};

/* Where the next record of a capture starts, and the capture's byte order. */
struct spritgrommet_cursor {
    size_t at;
    bool big_endian;
};

/* A capture opened. Where it is refused there is no cursor: its numbers are 0. */
struct spritgrommet_opening {
    uint8_t refusal; /* 0 or 7 */
    struct spritgrommet_cursor cursor;
};

/* A record of a capture. The frame's bytes stand from `from` up to `end`, where the next record starts. */
struct spritgrommet_record {
    uint32_t seconds;
    uint32_t microseconds;
    size_t captured;
    uint32_t original;
    size_t from;
    size_t end;
};

/* A record read. Where there is none its numbers are 0. */
struct spritgrommet_next {
    uint8_t refusal; /* 0, or 8 where a record is cut off or too long */
    uint8_t whole;   /* 1 where there is a record, 0 where no byte is left or it is refused */
    struct spritgrommet_record record;
};

/* A part of a capture written. Where it is refused nothing was written, and there is no place. */
struct spritgrommet_written {
    uint8_t refusal; /* 0, 8 or 9 */
    size_t next;     /* where the next record goes */
};

/* An entry of a side list: its number there, from 1, its address and its prefix length. */
struct spritgrommet_entry {
    size_t number;
    uint32_t address;
    uint8_t prefix;
};

/* Why a packet is dropped. A number that it does not have is 0: a refusal has nothing else, and verdicts 0 to 4 have nothing beside them.
 * Of a dropped packet, which is always one from the cell, it has what the packet meets at its second, and which of four facts are reported:
 * its cell address's count, the two marks of its connection record, and its kind. A fact is reported exactly if changing it alone, to some
 * value it may take, would have had the packet forwarded; at least one of them is. */
struct spritgrommet_reason {
    uint8_t refusal;    /* 0, or the number of the refusal */
    uint8_t verdict;    /* the packet's, as in `spritgrommet_answer`: 5 and 6 are dropped */
    uint8_t kind;       /* 0 UDP. 1 opening: TCP SYN without ACK. 2 SYN+ACK. 3 closing: FIN or RST, alone or with ACK. 4 plain. */
    bool plant_mark;    /* the record has the plant-to-cell mark */
    bool cell_mark;     /* the record has the cell-to-plant mark */
    int16_t count;      /* the cell address's count */
    uint16_t threshold; /* T */
    bool by_count;      /* the count is reported: with another one the packet would have been forwarded */
    bool by_plant_mark; /* the plant-to-cell mark is reported */
    bool by_cell_mark;  /* the cell-to-plant mark is reported */
    bool by_kind;       /* the kind is reported */
    struct spritgrommet_entry cell_entry;  /* the entry of the cell list that decided on the source address */
    struct spritgrommet_entry plant_entry; /* the entry of the plant list that decided on the destination address */
};

/* ---- the functions of the archives, over plain numbers and lent memory: two of libembed_why.a, which say so, and the others of
 * libembed.a ---- */

/* The factory settings: T 5, for a cell of a dozen machines, Cmin -20, Dmiss 60, Dconn 10, keys all zero. A program that wants another T
 * sets it; bin/verdicts, bin/forwarded and bin/why have 10. */
struct spritgrommet_settings spritgrommet_factory(void);

/* `spritgrommet_gateway_cold_start` below, over its parts. Where it answers 0 the later calls take the placing that it answers; where it is
 * refused they go on with the one before. */
struct spritgrommet_started spritgrommet_cold_start(struct spritgrommet_settings settings, uint8_t *records, size_t records_length,
                                                    uint32_t *tags, size_t tags_length, int16_t *counts, size_t counts_length,
                                                    uint32_t *clock, uint32_t time);

/* `spritgrommet_gateway_pass` below, over its parts. */
uint8_t spritgrommet_pass(struct spritgrommet_placing placing, uint8_t *records, size_t records_length, uint32_t *tags, size_t tags_length,
                          int16_t *counts, size_t counts_length, uint32_t *clock, struct spritgrommet_limits limits, uint32_t time);

/* `spritgrommet_gateway_judge` below, over its parts. */
struct spritgrommet_answer spritgrommet_judge(struct spritgrommet_placing placing, const uint8_t *cell, size_t cell_length,
                                              const uint8_t *plant, size_t plant_length, uint8_t *records, size_t records_length,
                                              uint32_t *tags, size_t tags_length, int16_t *counts, size_t counts_length, uint32_t *clock,
                                              struct spritgrommet_limits limits, uint32_t time, const uint8_t *packet,
                                              size_t packet_length);

/* `spritgrommet_gateway_judge_frame` below, over its parts. */
struct spritgrommet_answer spritgrommet_judge_frame(struct spritgrommet_placing placing, const uint8_t *cell, size_t cell_length,
                                                    const uint8_t *plant, size_t plant_length, uint8_t *records, size_t records_length,
                                                    uint32_t *tags, size_t tags_length, int16_t *counts, size_t counts_length,
                                                    uint32_t *clock, struct spritgrommet_limits limits, uint32_t time, const uint8_t *frame,
                                                    size_t frame_length);

/* Which entry of the side lists decides on an address: the longest prefix that holds it; at equal length the cell list wins; inside a
 * list the first such entry. It is never refused: a list that number 3 refuses is read entry by entry all the same, where one with a prefix
 * length over 32 holds no address and bytes after the last whole entry are ignored. */
struct spritgrommet_winner spritgrommet_winner(const uint8_t *cell, size_t cell_length, const uint8_t *plant, size_t plant_length,
                                               uint32_t address);

/* The address permutation E under eight round keys, and its inverse. They undo each other on every word. */
uint32_t spritgrommet_encrypt(const uint32_t keys[8], uint32_t word);
uint32_t spritgrommet_decrypt(const uint32_t keys[8], uint32_t word);

/* Adds an answer's verdict to its total. A refusal adds nothing, nor does a verdict over 6, which no call answers. */
void spritgrommet_tally(struct spritgrommet_tally *tally, struct spritgrommet_answer answer);

/* Reads the header of a capture that lies in memory, refused by 7, and then its records in turn, refused by 8: where one was read, the next
 * starts at its `end`. At or past the last byte there is none left, and no refusal. */
struct spritgrommet_opening spritgrommet_open(const uint8_t *bytes, size_t bytes_length);
struct spritgrommet_next spritgrommet_next(const uint8_t *bytes, size_t bytes_length, struct spritgrommet_cursor cursor);

/* Writes a capture into a room: its header at a place, refused by 9 where there is no room for it, and then records, each at the `next` of
 * the one before it, refused by 8 where the frame has more than 2,048 bytes and then by 9. Little-endian pcap 2.4, zone 0, accuracy 0,
 * snap length 2,048, link type 1. The room is `room_length` bytes long from its start, wherever the place is; bytes that nothing is written
 * to stay as they are. Reading what was written gives the same seconds, microseconds, original lengths and bytes. */
struct spritgrommet_written spritgrommet_put_header(uint8_t *room, size_t room_length, size_t at);
struct spritgrommet_written spritgrommet_put_record(uint8_t *room, size_t room_length, size_t at, uint32_t seconds, uint32_t microseconds,
                                                    uint32_t original, const uint8_t *frame, size_t frame_length);

/* `spritgrommet_gateway_why` below, over its parts, in libembed_why.a. Tables and clock are only read. */
struct spritgrommet_reason spritgrommet_why(struct spritgrommet_placing placing, const uint8_t *cell, size_t cell_length,
                                            const uint8_t *plant, size_t plant_length, const uint8_t *records, size_t records_length,
                                            const uint32_t *tags, size_t tags_length, const int16_t *counts, size_t counts_length,
                                            const uint32_t *clock, struct spritgrommet_limits limits, uint32_t time, const uint8_t *packet,
                                            size_t packet_length);

/* `spritgrommet_gateway_why_frame` below, over its parts, in libembed_why.a. Tables and clock are only read. */
struct spritgrommet_reason spritgrommet_why_frame(struct spritgrommet_placing placing, const uint8_t *cell, size_t cell_length,
                                                  const uint8_t *plant, size_t plant_length, const uint8_t *records, size_t records_length,
                                                  const uint32_t *tags, size_t tags_length, const int16_t *counts, size_t counts_length,
                                                  const uint32_t *clock, struct spritgrommet_limits limits, uint32_t time,
                                                  const uint8_t *frame, size_t frame_length);

/* ---- the same, over a gateway: the name of each has the word `gateway` before the name above ---- */

/* A side list: entries of five bytes, an address, most significant byte first, then a prefix length. Up to 64 entries; one without any
 * has length 0, and a pointer to anything. */
struct spritgrommet_list {
    const uint8_t *bytes;
    size_t length; /* in bytes */
};

/* A gateway: all that a call works on. Where it starts cold, what tables, clock and placing held before does not matter. Records are best
 * lent at a multiple of 64 bytes: a minute boundary takes 64 of them at a time, and stores only to those that differ afterwards, which are
 * the ones that are not 0 (that it stores to no other is tested, not proved). */
struct spritgrommet {
    struct spritgrommet_settings settings; /* the keys are read by a start alone */
    struct spritgrommet_list cell;         /* outside: may be infected */
    struct spritgrommet_list plant;        /* inside: to be protected */
    uint8_t *records;                      /* connection table: a power of two of one-byte records, 16 to 1,048,576 */
    size_t record_count;
    uint32_t *tags;  /* address table: 1 to 262,144 lines, a power of two, four entries each: their tags, */
    int16_t *counts; /* and their counts */
    size_t entry_count; /* four times the number of lines */
    uint32_t clock;     /* whole seconds */
    struct spritgrommet_placing placing; /* what places packets in the tables: written by a start that is not refused, and by no one else */
};

/* Starts cold: 0 to every record and tag, -32,768 to every count, the clock at the time, and the settings' keys as what places packets.
 * Answers 0, 1 or 2. It has to come first, and to answer 0: no call can tell a gateway that never started from one that did. */
static inline uint8_t spritgrommet_gateway_cold_start(struct spritgrommet *gateway, uint32_t time)
{
    const struct spritgrommet_started started =
        spritgrommet_cold_start(gateway->settings, gateway->records, gateway->record_count, gateway->tags, gateway->entry_count,
                                gateway->counts, gateway->entry_count, &gateway->clock, time);
    if (started.refusal == 0)
        gateway->placing = started.placing;
    return started.refusal;
}

/* Passes a time, with no packet: records age and counts fall as the clock says. Answers 0, 1, 2 or 4. */
static inline uint8_t spritgrommet_gateway_pass(struct spritgrommet *gateway, uint32_t time)
{
    return spritgrommet_pass(gateway->placing, gateway->records, gateway->record_count, gateway->tags, gateway->entry_count,
                             gateway->counts, gateway->entry_count, &gateway->clock, gateway->settings.limits, time);
}

/* Judges a packet, from its IPv4 header on, that comes at a time. Answers a refusal, 1 to 6, or the verdict: 5 and 6 are dropped, 1 to 4
 * forwarded; 0 is not the gateway's to judge, and no leave to forward ("Standing inline", above). What is refused is held back. */
static inline struct spritgrommet_answer spritgrommet_gateway_judge(struct spritgrommet *gateway, uint32_t time, const uint8_t *packet,
                                                                    size_t length)
{
    return spritgrommet_judge(gateway->placing, gateway->cell.bytes, gateway->cell.length, gateway->plant.bytes, gateway->plant.length,
                              gateway->records, gateway->record_count, gateway->tags, gateway->entry_count, gateway->counts,
                              gateway->entry_count, &gateway->clock, gateway->settings.limits, time, packet, length);
}

/* The same for an Ethernet frame. One under 14 bytes is refused by 5, and an EtherType other than 0x0800 gets verdict 0; neither reaches
 * the gateway, whose clock stays, and for these two no other number is tested. */
static inline struct spritgrommet_answer spritgrommet_gateway_judge_frame(struct spritgrommet *gateway, uint32_t time,
                                                                          const uint8_t *frame, size_t length)
{
    return spritgrommet_judge_frame(gateway->placing, gateway->cell.bytes, gateway->cell.length, gateway->plant.bytes,
                                    gateway->plant.length, gateway->records, gateway->record_count, gateway->tags, gateway->entry_count,
                                    gateway->counts, gateway->entry_count, &gateway->clock, gateway->settings.limits, time, frame, length);
}

/* Why a packet, from its IPv4 header on, that comes at a time is dropped, if it is. Answers the refusal or the verdict that
 * `spritgrommet_gateway_judge` would answer, and beside verdicts 5 and 6 the reason. Ask before the packet is judged, with the gateway as
 * it stands then: the answer is about the tables as they would stand at the packet's second. Afterwards it would be about one more packet
 * of the same bytes. Nothing is changed, not even the clock. */
static inline struct spritgrommet_reason spritgrommet_gateway_why(const struct spritgrommet *gateway, uint32_t time,
                                                                  const uint8_t *packet, size_t length)
{
    return spritgrommet_why(gateway->placing, gateway->cell.bytes, gateway->cell.length, gateway->plant.bytes, gateway->plant.length,
                            gateway->records, gateway->record_count, gateway->tags, gateway->entry_count, gateway->counts,
                            gateway->entry_count, &gateway->clock, gateway->settings.limits, time, packet, length);
}

/* The same for an Ethernet frame, with the refusal or the verdict that `spritgrommet_gateway_judge_frame` would answer. */
static inline struct spritgrommet_reason spritgrommet_gateway_why_frame(const struct spritgrommet *gateway, uint32_t time,
                                                                        const uint8_t *frame, size_t length)
{
    return spritgrommet_why_frame(gateway->placing, gateway->cell.bytes, gateway->cell.length, gateway->plant.bytes, gateway->plant.length,
                                  gateway->records, gateway->record_count, gateway->tags, gateway->entry_count, gateway->counts,
                                  gateway->entry_count, &gateway->clock, gateway->settings.limits, time, frame, length);
}

#ifdef __cplusplus
}
#endif

#endif
