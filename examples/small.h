/* A small gateway for the examples: the factory settings, cell 10.0.0.0/8, plant 192.168.0.0/16, 16 records and one line of four entries. It
 * has not started. */
#include "spritgrommet.h"

static struct spritgrommet small_gateway(void) {
    static uint8_t records[16];
    static uint32_t tags[4];
    static int16_t counts[4];
    static const uint8_t cell[] = {10, 0, 0, 0, 8};
    static const uint8_t plant[] = {192, 168, 0, 0, 16};
    struct spritgrommet gateway = {.settings = spritgrommet_factory(), .cell = {cell, sizeof cell}, .plant = {plant, sizeof plant},
                                   .records = records, .record_count = 16, .tags = tags, .counts = counts, .entry_count = 4};
    return gateway;
}
