/* Divisions: greatest common divisors, roots, dates, and quotients with signs. */
#include "window.h"

static uint32_t divisor_of(uint32_t a, uint32_t b)
{
    while (b != 0) {
        uint32_t rest = a % b;
        a = b;
        b = rest;
    }
    return a;
}

static uint32_t root_of(uint32_t number)
{
    uint32_t root = number;
    uint32_t next = number / 2 + number % 2;
    while (next < root) {
        root = next;
        next = (root + number / root) / 2;
    }
    return root;
}

/* The date of a day that counts from 1 January 1970. */
static void put_date(uint32_t day)
{
    uint32_t shifted = day + 719468u;
    uint32_t era = shifted / 146097u;
    uint32_t of_era = shifted % 146097u;
    uint32_t year = (of_era - of_era / 1460u + of_era / 36524u - of_era / 146096u) / 365u;
    uint32_t of_year = of_era - (365u * year + year / 4u - year / 100u);
    uint32_t month = (5u * of_year + 2u) / 153u;
    put_number(year + era * 400u + (month > 9u));
    put_text("-");
    put_number(month < 10u ? month + 3u : month - 9u);
    put_text("-");
    put_number(of_year - (153u * month + 2u) / 5u + 1u);
    put_text("\n");
}

int main(void)
{
    static const int32_t pairs[6][2] = { { 7, 2 }, { -7, 2 }, { 7, -2 }, { -7, -2 }, { INT32_MIN, 10 }, { 1, INT32_MIN } };
    uint32_t mixed = 0;
    put_number(divisor_of(3528u, 3780u));
    put_text(" ");
    put_number(divisor_of(2971215073u, 1836311903u));
    put_text(" ");
    put_number(root_of(1000000007u));
    put_text("\n");
    put_date(0);
    put_date(20789);
    for (int k = 0; k < 6; k++) {
        uint32_t quotient = (uint32_t)(pairs[k][0] / pairs[k][1]);
        uint32_t rest = (uint32_t)(pairs[k][0] % pairs[k][1]);
        put_hex(quotient);
        put_text(" ");
        put_hex(rest);
        put_text("\n");
        mixed = mixed * 31u + quotient + rest;
    }
    return (int)mixed;
}
