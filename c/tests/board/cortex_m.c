/* The start of a Cortex-M without an operating system, and the devices of the board as files by semihosting, which an
 * emulator or a debugger answers ("Semihosting for AArch32 and AArch64", Arm, 2.0). */
#include "board.h"
#include <string.h>

enum { SYS_OPEN = 0x01, SYS_WRITE = 0x05, SYS_READ = 0x06, SYS_EXIT_EXTENDED = 0x20, EXITED = 0x20026 };
enum { READ_OCTETS = 1, WRITE_OCTETS = 5 };

extern uint32_t stack_top[], bss_begin[], bss_end[], data_begin[], data_end[], data_kept[];
int main(void);
void start(void);

/* Asks the host. */
static int32_t ask(int32_t what, const void *with) {
    register int32_t r0 __asm__("r0") = what;
    register const void *r1 __asm__("r1") = with;
    __asm__ volatile("bkpt 0xab" : "+r"(r0) : "r"(r1) : "memory");
    return r0;
}

static int32_t slots, frames, records;

static int32_t open_file(const char *name, uint32_t mode) {
    const uint32_t with[3] = {(uint32_t)name, mode, (uint32_t)strlen(name)};
    return ask(SYS_OPEN, with);
}

bool open_devices(void) {
    slots = open_file("slots", READ_OCTETS);
    frames = open_file("frames", WRITE_OCTETS);
    records = open_file("executed", WRITE_OCTETS);
    return slots >= 0 && frames >= 0 && records >= 0;
}

/* What a file takes or gives may be less than is asked for; the host answers how much is left. */
static bool move(int32_t what, int32_t file, const uint8_t *octets, size_t count) {
    while (count > 0) {
        const uint32_t with[3] = {(uint32_t)file, (uint32_t)octets, (uint32_t)count};
        const size_t left = (size_t)ask(what, with);
        if (left >= count) return false;
        octets += count - left;
        count = left;
    }
    return true;
}

bool read_slot(uint8_t *octets, size_t count) {
    return move(SYS_READ, slots, octets, count);
}

bool write_frame(const uint8_t *octets, size_t count) {
    return move(SYS_WRITE, frames, octets, count);
}

bool note(const uint8_t *record) {
    return move(SYS_WRITE, records, record, RECORD);
}

void start(void) {
    memcpy(data_begin, data_kept, (size_t)((char *)data_end - (char *)data_begin));
    memset(bss_begin, 0, (size_t)((char *)bss_end - (char *)bss_begin));
    const uint32_t with[2] = {EXITED, (uint32_t)main()};
    ask(SYS_EXIT_EXTENDED, with);
    for (;;) {}
}

/* Any fault ends the run as one that cannot be answered for. */
static void fail(void) {
    const uint32_t with[2] = {EXITED, 99};
    ask(SYS_EXIT_EXTENDED, with);
    for (;;) {}
}

__attribute__((section(".vectors"), used)) static const void *const vectors[16] = {
    stack_top, (void *)start, (void *)fail, (void *)fail, (void *)fail, (void *)fail, (void *)fail,
};
