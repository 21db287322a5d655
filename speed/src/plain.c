// The address permutation E in plain C, for speed: constant tables, lookups by nibble, and a rotation that gcc knows.
#include <stdint.h>

static const uint8_t boxes[8][16] = {
    {3, 8, 15, 1, 10, 6, 5, 11, 14, 13, 4, 2, 7, 0, 9, 12},
    {15, 12, 2, 7, 9, 0, 5, 10, 1, 11, 14, 8, 6, 13, 3, 4},
    {8, 6, 7, 9, 3, 12, 10, 15, 13, 1, 14, 4, 0, 11, 5, 2},
    {0, 15, 11, 8, 12, 9, 6, 3, 13, 1, 2, 4, 10, 7, 5, 14},
    {1, 15, 8, 3, 12, 0, 11, 6, 2, 5, 4, 10, 9, 14, 7, 13},
    {15, 5, 2, 11, 4, 10, 9, 12, 0, 3, 14, 8, 13, 6, 7, 1},
    {7, 2, 12, 5, 8, 4, 6, 11, 14, 9, 1, 13, 15, 3, 10, 0},
    {1, 13, 15, 0, 14, 8, 2, 11, 7, 4, 12, 10, 9, 3, 5, 6},
};

uint32_t plain_c_encrypt(const uint32_t keys[8], uint32_t word)
{
    for (int r = 0; r < 8; r++) {
        uint32_t sum = word + keys[r], image = 0;
        for (int shift = 0; shift < 32; shift += 4)
            image |= (uint32_t)boxes[r][sum >> shift & 15] << shift;
        word = image << 11 | image >> 21;
    }
    return word;
}
