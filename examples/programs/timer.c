/* Five ticks of the timer's interrupt line, each of which the program waits for by WFI; a tick lasts until the line is 0 again. */
#include "system.h"
#include "window.h"

static volatile uint32_t ticks;

uint32_t on_trap(uint32_t cause, uint32_t pc, uint32_t value)
{
    uint32_t pending;
    if (cause != 0x80000007u || value != 0) {
        put_text("no tick\n");
        finish(cause);
    }
    ticks++;
    do {
        READ_CSR(mip, pending);
    } while ((pending & TIMER_INTERRUPT) != 0);
    return pc;
}

int main(void)
{
    WRITE_CSR(mtvec, handler);
    WRITE_CSR(mie, TIMER_INTERRUPT);
    while (ticks < 5) {
        /* no interrupt comes between the test and WFI, since none is taken before MIE is set */
        WAIT_FOR_INTERRUPT();
        SET_CSR(mstatus, STATUS_MIE);
        CLEAR_CSR(mstatus, STATUS_MIE);
        put_text("tick ");
        put_number(ticks);
        put_text("\n");
    }
    return (int)ticks;
}
