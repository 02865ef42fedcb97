/* Base64 (RFC 4648) of a text, and back. */
#include "window.h"

static const char digits[] = "ABCDEFGHIJKLMNOPQRSTUVWXYZabcdefghijklmnopqrstuvwxyz0123456789+/";

static size_t encode(const uint8_t *from, size_t count, char *to)
{
    size_t made = 0;
    for (size_t at = 0; at < count; at += 3) {
        uint32_t group = (uint32_t)from[at] << 16;
        group |= at + 1 < count ? (uint32_t)from[at + 1] << 8 : 0;
        group |= at + 2 < count ? from[at + 2] : 0;
        to[made++] = digits[group >> 18];
        to[made++] = digits[group >> 12 & 63];
        to[made++] = at + 1 < count ? digits[group >> 6 & 63] : '=';
        to[made++] = at + 2 < count ? digits[group & 63] : '=';
    }
    to[made] = 0;
    return made;
}

static uint32_t digit_of(char c)
{
    uint32_t at = 0;
    while (digits[at] != c) {
        at++;
    }
    return at;
}

static size_t decode(const char *from, uint8_t *to)
{
    size_t made = 0;
    for (; *from != 0; from += 4) {
        uint32_t group = digit_of(from[0]) << 18 | digit_of(from[1]) << 12;
        to[made++] = (uint8_t)(group >> 16);
        if (from[2] != '=') {
            group |= digit_of(from[2]) << 6;
            to[made++] = (uint8_t)(group >> 8);
        }
        if (from[3] != '=') {
            to[made++] = (uint8_t)(group | digit_of(from[3]));
        }
    }
    return made;
}

int main(void)
{
    static const char text[] = "A core takes what its plug-ins offer.";
    static char coded[64];
    static uint8_t back[64];
    int wrong = 0;
    for (size_t cut = 0; cut < 3; cut++) {
        size_t count = sizeof text - 1 - cut;
        encode((const uint8_t *)text, count, coded);
        put_text(coded);
        put_text("\n");
        wrong += decode(coded, back) != count;
        for (size_t k = 0; k < count; k++) {
            wrong += back[k] != (uint8_t)text[k];
        }
    }
    return wrong;
}
