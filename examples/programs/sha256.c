/* SHA-256 (FIPS 180-4) of a short text and of one of two blocks. */
#include "window.h"

static const uint32_t round_constants[64] = {
    0x428a2f98, 0x71374491, 0xb5c0fbcf, 0xe9b5dba5, 0x3956c25b, 0x59f111f1, 0x923f82a4, 0xab1c5ed5, 0xd807aa98, 0x12835b01, 0x243185be,
    0x550c7dc3, 0x72be5d74, 0x80deb1fe, 0x9bdc06a7, 0xc19bf174, 0xe49b69c1, 0xefbe4786, 0x0fc19dc6, 0x240ca1cc, 0x2de92c6f, 0x4a7484aa,
    0x5cb0a9dc, 0x76f988da, 0x983e5152, 0xa831c66d, 0xb00327c8, 0xbf597fc7, 0xc6e00bf3, 0xd5a79147, 0x06ca6351, 0x14292967, 0x27b70a85,
    0x2e1b2138, 0x4d2c6dfc, 0x53380d13, 0x650a7354, 0x766a0abb, 0x81c2c92e, 0x92722c85, 0xa2bfe8a1, 0xa81a664b, 0xc24b8b70, 0xc76c51a3,
    0xd192e819, 0xd6990624, 0xf40e3585, 0x106aa070, 0x19a4c116, 0x1e376c08, 0x2748774c, 0x34b0bcb5, 0x391c0cb3, 0x4ed8aa4a, 0x5b9cca4f,
    0x682e6ff3, 0x748f82ee, 0x78a5636f, 0x84c87814, 0x8cc70208, 0x90befffa, 0xa4506ceb, 0xbef9a3f7, 0xc67178f2
};

static uint32_t state[8];

static uint32_t rotated(uint32_t word, int by) { return word >> by | word << (32 - by); }

static void take_block(const uint8_t *block)
{
    uint32_t w[64];
    uint32_t s[8];
    for (int k = 0; k < 16; k++) {
        w[k] = (uint32_t)block[4 * k] << 24 | (uint32_t)block[4 * k + 1] << 16 | (uint32_t)block[4 * k + 2] << 8 | block[4 * k + 3];
    }
    for (int k = 16; k < 64; k++) {
        uint32_t low = rotated(w[k - 15], 7) ^ rotated(w[k - 15], 18) ^ w[k - 15] >> 3;
        uint32_t high = rotated(w[k - 2], 17) ^ rotated(w[k - 2], 19) ^ w[k - 2] >> 10;
        w[k] = w[k - 16] + low + w[k - 7] + high;
    }
    for (int k = 0; k < 8; k++) {
        s[k] = state[k];
    }
    for (int k = 0; k < 64; k++) {
        uint32_t e = rotated(s[4], 6) ^ rotated(s[4], 11) ^ rotated(s[4], 25);
        uint32_t choice = (s[4] & s[5]) ^ (~s[4] & s[6]);
        uint32_t first = s[7] + e + choice + round_constants[k] + w[k];
        uint32_t a = rotated(s[0], 2) ^ rotated(s[0], 13) ^ rotated(s[0], 22);
        uint32_t majority = (s[0] & s[1]) ^ (s[0] & s[2]) ^ (s[1] & s[2]);
        for (int j = 7; j > 0; j--) {
            s[j] = s[j - 1];
        }
        s[4] += first;
        s[0] = first + a + majority;
    }
    for (int k = 0; k < 8; k++) {
        state[k] += s[k];
    }
}

/* Prints the hash of a text of fewer than 120 bytes. */
static void put_hash(const char *text)
{
    static const uint32_t start[8] = { 0x6a09e667, 0xbb67ae85, 0x3c6ef372, 0xa54ff53a, 0x510e527f, 0x9b05688c, 0x1f83d9ab, 0x5be0cd19 };
    uint8_t blocks[128];
    uint32_t length = 0;
    for (int k = 0; k < 8; k++) {
        state[k] = start[k];
    }
    while (length < 119 && text[length] != 0) {
        blocks[length] = (uint8_t)text[length];
        length++;
    }
    uint32_t end = length < 56 ? 64 : 128;
    for (uint32_t k = length; k < end; k++) {
        blocks[k] = 0;
    }
    blocks[length] = 0x80;
    blocks[end - 2] = (uint8_t)(length >> 5);
    blocks[end - 1] = (uint8_t)(length << 3);
    for (uint32_t at = 0; at < end; at += 64) {
        take_block(blocks + at);
    }
    for (int k = 0; k < 8; k++) {
        put_hex(state[k]);
    }
    put_text("\n");
}

int main(void)
{
    put_hash("abc");
    put_hash("abcdbcdecdefdefgefghfghighijhijkijkljklmklmnlmnomnopnopq");
    return 0;
}
