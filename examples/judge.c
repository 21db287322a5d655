/* Judges a capture on standard input by the proved gateway, and prints what bin/verdicts prints of it.
 *   tools/archives && cc -Iinclude examples/judge.c target/staticlib/libembed.a -o judge && ./judge < examples/cell.pcap */
#include <stdio.h>
#include <stdlib.h>
#include "spritgrommet.h"

static uint8_t records[4096];
static uint32_t tags[1024];
static int16_t counts[1024];
static const uint8_t cell[] = {10, 0, 0, 0, 8}, plant[] = {192, 168, 0, 0, 16};

/* All of a stream's bytes, in memory that grows with them. */
static uint8_t *read_all(FILE *stream, size_t *length)
{
    uint8_t *bytes = NULL;
    size_t room = 0, more;
    *length = 0;
    do {
        if (*length == room && !(bytes = realloc(bytes, room = 2 * room + 65536)))
            exit(1);
        *length += more = fread(bytes + *length, 1, room - *length, stream);
    } while (more);
    return bytes;
}

static void print_answer(unsigned number, struct spritgrommet_answer answer)
{
    const uint32_t a = answer.address;
    if (answer.refusal)
        printf("%u R %u\n", number, answer.refusal);
    else if (answer.verdict == 0)
        printf("%u 0 - -\n", number);
    else if (answer.replaced)
        printf("%u %u %d %u.%u.%u.%u\n", number, answer.verdict, answer.count, a >> 24, a >> 16 & 255, a >> 8 & 255, a & 255);
    else
        printf("%u %u %d -\n", number, answer.verdict, answer.count);
}

int main(void)
{
    struct spritgrommet gateway = {.settings = spritgrommet_factory(), .cell = {cell, sizeof cell}, .plant = {plant, sizeof plant},
                                   .records = records, .record_count = 4096, .tags = tags, .counts = counts, .entry_count = 1024};
    gateway.settings.limits.threshold = 10; /* bin/verdicts' own T, and not the factory's */
    size_t length;
    uint8_t *bytes = read_all(stdin, &length);
    struct spritgrommet_opening opening = spritgrommet_open(bytes, length);
    struct spritgrommet_next next = {opening.refusal, 0, {0, 0, 0, 0, 0, 0}};
    unsigned number = 0, refusals = 0;
    while (!next.refusal && (next = spritgrommet_next(bytes, length, opening.cursor)).whole) {
        if (number++ == 0 && spritgrommet_gateway_cold_start(&gateway, next.record.seconds))
            return 1; /* settings and sizes are good, so that this is never reached */
        struct spritgrommet_answer answer =
            spritgrommet_gateway_judge_frame(&gateway, next.record.seconds, bytes + next.record.from, next.record.captured);
        print_answer(number, answer);
        refusals += answer.refusal != 0;
        opening.cursor.at = next.record.end;
    }
    if (next.refusal)
        printf("%u R %u\n", opening.refusal ? 0 : number + 1, next.refusal);
    free(bytes);
    return printf("end %u %u\n", number, refusals + (next.refusal != 0)) < 0;
}
