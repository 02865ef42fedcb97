/* System registers by their names, the bits of interrupts, and the function that the handler (handler.S) calls. */
#ifndef SYSTEM_H
#define SYSTEM_H

#include <stdint.h>

#define READ_CSR(name, into) __asm__ volatile("csrr %0, " #name : "=r"(into))
#define WRITE_CSR(name, value) __asm__ volatile("csrw " #name ", %0" : : "r"(value) : "memory")
#define SET_CSR(name, bits) __asm__ volatile("csrs " #name ", %0" : : "r"(bits) : "memory")
#define CLEAR_CSR(name, bits) __asm__ volatile("csrc " #name ", %0" : : "r"(bits) : "memory")

/* Waits until an interrupt that mie enables is pending, whether or not it may be taken. */
#define WAIT_FOR_INTERRUPT() __asm__ volatile("wfi" : : : "memory")

#define STATUS_MIE (1u << 3)
#define SOFTWARE_INTERRUPT (1u << 3)
#define TIMER_INTERRUPT (1u << 7)
#define EXTERNAL_INTERRUPT (1u << 11)

/* The address for mtvec. */
extern void handler(void);

/* What a program does at a trap or an interrupt: from mcause, mepc and mtval it gives the pc to go on at. */
uint32_t on_trap(uint32_t cause, uint32_t pc, uint32_t value);

#endif
