/* Asks a gateway why it would drop a packet: a reset from the cell that belongs to no connection, and prints the verdict and the facts that
 * would have let it through, and the entries of the side lists that decided. docs/WHY.md says what they mean.
 *   tools/archives
 *   cc -Iinclude examples/why.c target/staticlib/libembed.a target/staticlib/libembed_why.a -o why && ./why */
#include "small.h"

#include <stdio.h>

static void print_entry(const char *list, struct spritgrommet_entry entry) {
    printf("%s entry %d: %d.%d.%d.%d/%d\n", list, (int)entry.number, (int)(entry.address >> 24), (int)(entry.address >> 16 & 255),
           (int)(entry.address >> 8 & 255), (int)(entry.address & 255), entry.prefix);
}

int main(void) {
    /* RST from 10.0.0.1 port 40000 to 192.168.0.1 port 80: an IPv4 header of 20 bytes, and one of TCP. */
    static const uint8_t reset[] = {0x45, 0, 0, 40, 0, 0, 0, 0, 64, 6, 0, 0, 10,   0, 0, 1, 192, 168, 0, 1,
                                    156,  64, 0, 80, 0, 0, 0, 0, 0,  0, 0, 0, 0x50, 4, 0, 0, 0,   0,   0, 0};
    struct spritgrommet gateway = small_gateway();
    struct spritgrommet_reason reason;

    if (spritgrommet_gateway_cold_start(&gateway, 100) != 0) {
        return 1;
    }
    reason = spritgrommet_gateway_why(&gateway, 100, reset, sizeof reset);
    printf("refusal %d verdict %d count %d T %d:%s%s%s%s\n", reason.refusal, reason.verdict, reason.count, reason.threshold,
           reason.by_count ? " count" : "", reason.by_plant_mark ? " plant-mark" : "", reason.by_cell_mark ? " cell-mark" : "",
           reason.by_kind ? " kind" : "");
    print_entry("cell", reason.cell_entry);
    print_entry("plant", reason.plant_entry);
    return 0;
}
