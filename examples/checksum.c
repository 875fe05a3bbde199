/* The CRC-32 of some texts, by a table of the 256 bytes. */
#include "oscar.h"

static uint32_t table[256];

static void make_table(void)
{
    for (uint32_t byte = 0; byte < 256; byte++) {
        uint32_t remainder = byte;
        for (int bit = 0; bit < 8; bit++)
            remainder = remainder & 1 ? remainder >> 1 ^ 0xedb88320 : remainder >> 1;
        table[byte] = remainder;
    }
}

static uint32_t crc32(const char *text)
{
    uint32_t remainder = 0xffffffff;
    for (; *text != 0; text++)
        remainder = table[(remainder ^ (uint8_t)*text) & 0xff] ^ remainder >> 8;
    return ~remainder;
}

static const char *const texts[] = {
    "123456789",
    "a",
    "a pointer is a promise: a freed page is closed",
    "The quick brown fox jumps over the lazy dog",
};

int main(void)
{
    make_table();
    for (size_t i = 0; i < sizeof texts / sizeof texts[0]; i++) {
        uint32_t sum = crc32(texts[i]);
        char digits[9];
        for (int digit = 0; digit < 8; digit++)
            digits[digit] = "0123456789abcdef"[sum >> (28 - 4 * digit) & 15];
        digits[8] = ' ';
        oscar_write(digits, 9);
        print(texts[i]);
        print("\n");
    }
    return 0;
}
