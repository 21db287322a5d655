/* A gateway runs on the keys that it started with, whatever becomes of the settings', and a start that is refused leaves it running. Prints
 * what two starts and a refused one are answered, and the packets after each.
 *   tools/archives
 *   cc -Iinclude examples/keys.c target/staticlib/libembed.a -o keys && ./keys */
#include "small.h"

#include <stdio.h>

/* UDP from 10.0.0.1 to 192.168.0.1: an IPv4 header of 20 bytes, and one of UDP. */
static const uint8_t packet[] = {0x45, 0, 0, 28, 0, 0, 0, 0, 64, 17, 0, 0, 10, 0, 0, 1, 192, 168, 0, 1, 156, 64, 0, 53, 0, 8, 0, 0};

static void start(struct spritgrommet *gateway) {
    printf("start %d\n", spritgrommet_gateway_cold_start(gateway, 100));
}

static void judge(struct spritgrommet *gateway) {
    const struct spritgrommet_answer answer = spritgrommet_gateway_judge(gateway, 100, packet, sizeof packet);
    printf("refusal %d verdict %d count %d\n", answer.refusal, answer.verdict, answer.count);
}

int main(void) {
    struct spritgrommet gateway = small_gateway();

    gateway.settings.keys[0] = 1;
    start(&gateway);
    judge(&gateway); /* a fresh contact */
    gateway.settings.keys[0] = 2;
    judge(&gateway); /* the same connection: it is found where it was put */
    gateway.settings.limits.threshold = 0;
    start(&gateway); /* refused by 1 */
    gateway.settings.limits.threshold = 5;
    judge(&gateway); /* and found there still */
    start(&gateway);
    judge(&gateway); /* a fresh contact again, by the new keys */
    return 0;
}
