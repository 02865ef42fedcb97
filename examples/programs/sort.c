/* Drawn numbers in order, once by halves and once by a heap. */
#include "window.h"

#define COUNT 96

static int32_t halves[COUNT];
static int32_t heap[COUNT];

static void swap(int32_t *a, int32_t *b)
{
    int32_t held = *a;
    *a = *b;
    *b = held;
}

static void sort_halves(int32_t *items, int low, int high)
{
    if (low >= high) {
        return;
    }
    int32_t middle = items[(low + high) / 2];
    int i = low;
    int j = high;
    while (i <= j) {
        while (items[i] < middle) {
            i++;
        }
        while (middle < items[j]) {
            j--;
        }
        if (i <= j) {
            swap(&items[i++], &items[j--]);
        }
    }
    sort_halves(items, low, j);
    sort_halves(items, i, high);
}

static void sink(int32_t *items, int at, int count)
{
    for (;;) {
        int child = 2 * at + 1;
        if (child >= count) {
            return;
        }
        if (child + 1 < count && items[child] < items[child + 1]) {
            child++;
        }
        if (items[at] >= items[child]) {
            return;
        }
        swap(&items[at], &items[child]);
        at = child;
    }
}

static void sort_heap(int32_t *items, int count)
{
    for (int at = count / 2 - 1; at >= 0; at--) {
        sink(items, at, count);
    }
    for (int last = count - 1; last > 0; last--) {
        swap(&items[0], &items[last]);
        sink(items, 0, last);
    }
}

int main(void)
{
    uint32_t seed = 2463534242u;
    int wrong = 0;
    for (int k = 0; k < COUNT; k++) {
        halves[k] = (int32_t)draw(&seed);
        heap[k] = halves[k];
    }
    sort_halves(halves, 0, COUNT - 1);
    sort_heap(heap, COUNT);
    for (int k = 0; k < COUNT; k++) {
        if (halves[k] != heap[k] || (k > 0 && halves[k - 1] > halves[k])) {
            wrong++;
        }
    }
    for (int k = 0; k < COUNT; k += 19) {
        put_hex((uint32_t)halves[k]);
        put_text("\n");
    }
    return wrong;
}
