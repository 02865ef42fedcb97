/* Instructions that trap, each of which the handler notes and skips: a call, a breakpoint, a word that is no instruction, and a load and a
   store at addresses that are no multiples of their sizes, which leave register and memory as they were. */
#include "system.h"
#include "window.h"

static volatile uint32_t seen_cause, seen_pc, seen_value;

static volatile uint32_t words[2] = {0x01020304, 0x05060708};

uint32_t on_trap(uint32_t cause, uint32_t pc, uint32_t value)
{
    seen_cause = cause;
    seen_pc = pc;
    seen_value = value;
    return pc + 4;
}

/* What the handler noted: the cause, the word that trapped, and mtval, as a distance from a place. */
static void tell(const char *name, uint32_t place)
{
    put_text(name);
    put_text(": cause ");
    put_number(seen_cause);
    put_text(", word ");
    put_hex(*(const uint32_t *)seen_pc);
    put_text(", value ");
    put_hex(seen_value - place);
    put_text("\n");
}

int main(void)
{
    uint32_t place = (uint32_t)words;
    uint32_t loaded = 0xa5a5a5a5u;
    WRITE_CSR(mtvec, handler);
    __asm__ volatile("ecall" : : : "memory");
    tell("ecall", 0);
    __asm__ volatile("ebreak" : : : "memory");
    tell("ebreak", 0);
    __asm__ volatile(".word 0xfedcba98" : : : "memory");
    tell("no instruction", 0);
    __asm__ volatile("mv a3, %0\n mv a4, %1\n lw a3, 1(a4)\n mv %0, a3" : "+r"(loaded) : "r"(place) : "a3", "a4", "memory");
    tell("load", place);
    __asm__ volatile("mv a3, %0\n mv a4, %1\n sh a3, 3(a4)" : : "r"(loaded), "r"(place) : "a3", "a4", "memory");
    tell("store", place);
    put_hex(loaded);
    put_text(" ");
    put_hex(words[0]);
    put_text(" ");
    put_hex(words[1]);
    put_text("\n");
    return 0;
}
