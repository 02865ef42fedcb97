/* The CRC-32 of Ethernet, by a table that the program makes. */
#include "window.h"

static uint32_t table[256];

static void make_table(void)
{
    for (uint32_t byte = 0; byte < 256; byte++) {
        uint32_t rest = byte;
        for (int k = 0; k < 8; k++) {
            rest = (rest & 1) != 0 ? rest >> 1 ^ 0xedb88320u : rest >> 1;
        }
        table[byte] = rest;
    }
}

static uint32_t crc_of(const uint8_t *bytes, size_t count)
{
    uint32_t crc = 0xffffffffu;
    for (size_t k = 0; k < count; k++) {
        crc = crc >> 8 ^ table[(crc ^ bytes[k]) & 255];
    }
    return ~crc;
}

int main(void)
{
    static const char check[] = "123456789";
    static uint8_t block[256];
    uint32_t seed = 1;
    make_table();
    for (size_t k = 0; k < sizeof block; k++) {
        block[k] = (uint8_t)draw(&seed);
    }
    put_hex(crc_of((const uint8_t *)check, 9));
    put_text(" ");
    put_hex(crc_of(block, sizeof block));
    put_text("\n");
    return (int)crc_of(block, 16);
}
