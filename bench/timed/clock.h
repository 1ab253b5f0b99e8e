/* What the programs of this folder share. They make calls of a library with the inputs that take longest, and write,
 * for each call and the numbers that determine its time, the most ticks that occurred. They run on a Cortex-M without
 * an operating system (c/tests/board/cortex_m.c), on which a timer of the emulator counts instructions. */
#ifndef CLOCK_H
#define CLOCK_H
#include "board.h"

/* A timer of the board that counts down (Arm CMSDK, "APB timer"). */
#define TIMER_CONTROL (*(volatile uint32_t *)0x40000000u)
#define TIMER_VALUE (*(volatile uint32_t *)0x40000004u)
#define TIMER_RELOAD (*(volatile uint32_t *)0x40000008u)

/* The ticks that the functions for memory took since a call began, and how often they were called. */
extern uint32_t outside, asked;

/* The ticks of a call, kept as the most of those with this name and these numbers: the octets that it is given or writes,
 * the packets in them, the octets that are moved or joined besides, and the segments or frames. */
void keep(const char *name, size_t n, size_t p, size_t m, size_t s, uint32_t ticks);

/* Makes a call and keeps its ticks. */
#define TIMED(name, n, p, m, s, call)                                \
    do {                                                             \
        uint32_t begun_, ended_;                                     \
        outside = asked = 0;                                         \
        begun_ = TIMER_VALUE;                                        \
        call;                                                        \
        ended_ = TIMER_VALUE;                                        \
        keep((name), (n), (p), (m), (s), begun_ - ended_ - outside); \
    } while (0)

/* Ends the program where a call does not answer what it has to. */
void want(bool holds);

/* A random number below a bound. */
uint32_t below(uint32_t bound);

/* What a program measures. */
void measure(void);

/* Writes a command packet, of this many octets, at least 7. */
size_t put_packet(uint8_t *at, size_t octets);
#endif
