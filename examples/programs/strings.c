/* Records, texts, and calls that a number picks, in the manner of synthetic benchmarks of integer work. */
#include "window.h"

#define NAME 31
#define ROUNDS 12

enum color { RED, GREEN, BLUE };

struct item {
    struct item *next;
    enum color color;
    int32_t weight;
    char name[NAME];
};

static struct item items[3];
static int32_t totals[3];

static int length_of(const char *text)
{
    int length = 0;
    while (text[length] != 0) {
        length++;
    }
    return length;
}

static void copy_text(char *to, const char *from)
{
    while ((*to++ = *from++) != 0) {
    }
}

static int compare(const char *a, const char *b)
{
    while (*a != 0 && *a == *b) {
        a++;
        b++;
    }
    return (uint8_t)*a - (uint8_t)*b;
}

static int32_t weigh_length(const struct item *item) { return item->weight + length_of(item->name); }

static int32_t weigh_letters(const struct item *item)
{
    int32_t sum = 0;
    for (const char *at = item->name; *at != 0; at++) {
        sum += *at & 31;
    }
    return sum ^ item->weight;
}

static int32_t weigh_color(const struct item *item) { return item->weight * 3 - (int32_t)item->color; }

static int32_t (*const weigh[3])(const struct item *) = { weigh_length, weigh_letters, weigh_color };

/* The color behind that of an item, by the first letter of the item behind it. */
static enum color step(const struct item *item)
{
    switch (item->color) {
    case RED:
        return item->next->name[0] > 'M' ? GREEN : BLUE;
    case GREEN:
        return BLUE;
    default:
        return RED;
    }
}

int main(void)
{
    static const char *const names[3] = { "NORTHERN GATE, FIRST PIECE", "SOUTHERN GATE", "EASTERN GATE, THIRD PIECE" };
    for (int k = 0; k < 3; k++) {
        items[k].next = &items[(k + 1) % 3];
        items[k].color = (enum color)k;
        items[k].weight = 10 * k + 1;
        copy_text(items[k].name, names[k]);
    }
    int less = 0;
    for (int round = 0; round < ROUNDS; round++) {
        struct item *item = &items[round % 3];
        struct item held = *item;
        held.color = step(&held);
        held.weight = weigh[held.color](&held);
        totals[held.color] += held.weight;
        less += compare(held.name, held.next->name) < 0;
        *item = held;
    }
    for (int k = 0; k < 3; k++) {
        put_text(items[k].name);
        put_text(" ");
        put_number((uint32_t)items[k].weight);
        put_text(" ");
        put_number((uint32_t)totals[k]);
        put_text("\n");
    }
    return less;
}
