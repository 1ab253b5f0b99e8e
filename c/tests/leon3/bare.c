/* What the tests of c/tests require of a C library, for a LEON3 without an operating system (c/check_leon3): text goes
 * to the serial line of qemu's leon3_generic, memory is one static block, and the compiler's functions for numbers of
 * 64 bits are here. CALLS is the one word that the program gets; it ends by the line `status N`. */
#include <stdarg.h>
#include <stddef.h>
#include <stdint.h>

#define UART_DATA (*(volatile uint32_t *)0x80000100u)

int main(int count, char **words);
void *memset(void *to, int value, size_t n);
void begin(void);

int putchar(int c) {
    UART_DATA = (uint32_t)c;
    return c;
}

int puts(const char *text) {
    while (*text) putchar(*text++);
    return putchar('\n');
}

/* ---- Octets and text. ---- */

void *memmove(void *to, const void *from, size_t n) {
    unsigned char *t = to;
    const unsigned char *f = from;
    if (t < f) {
        while (n--) *t++ = *f++;
    } else {
        while (n--) t[n] = f[n];
    }
    return to;
}

void *memcpy(void *to, const void *from, size_t n) {
    return memmove(to, from, n);
}

void *memset(void *to, int value, size_t n) {
    unsigned char *t = to;
    while (n--) *t++ = (unsigned char)value;
    return to;
}

int memcmp(const void *a, const void *b, size_t n) {
    const unsigned char *x = a, *y = b;
    for (; n > 0 && *x == *y; n--) x++, y++;
    return n > 0 ? *x - *y : 0;
}

void *memchr(const void *at, int c, size_t n) {
    const unsigned char *x = at;
    for (; n > 0; n--, x++) {
        if (*x == (unsigned char)c) return (void *)(uintptr_t)x;
    }
    return NULL;
}

size_t strlen(const char *text) {
    size_t n = 0;
    while (text[n]) n++;
    return n;
}

int strcmp(const char *a, const char *b) {
    while (*a && *a == *b) a++, b++;
    return (unsigned char)*a - (unsigned char)*b;
}

char *strstr(const char *text, const char *part) {
    const size_t n = strlen(part);
    for (; *text; text++) {
        if (memcmp(text, part, n) == 0) return (char *)(uintptr_t)text;
    }
    return NULL;
}

unsigned long strtoul(const char *text, char **end, int base) {
    unsigned long value = 0;
    (void)end;
    for (; *text >= '0' && *text <= '9'; text++) value = value * (unsigned long)base + (unsigned long)(*text - '0');
    return value;
}

unsigned long long strtoull(const char *text, char **end, int base) {
    return strtoul(text, end, base);
}

long strtol(const char *text, char **end, int base) {
    return (long)strtoul(text, end, base);
}

int atoi(const char *text) {
    return (int)strtoul(text, NULL, 10);
}

/* ---- printf, of %s %c %d %u %x with a width and of each length. ---- */

static char *digits(char *end, unsigned long long value, unsigned base) {
    do *--end = "0123456789abcdef"[value % base];
    while (value /= base);
    return end;
}

static const char *number(char *end, char kind, int longs, int width, va_list *more) {
    unsigned long long value = longs > 1 ? va_arg(*more, unsigned long long) : va_arg(*more, unsigned);
    const int is_negative = kind == 'd' && longs < 2 && (int)(unsigned)value < 0;
    char *at = digits(end, is_negative ? 0u - (unsigned)value : value, kind == 'x' ? 16 : 10);
    while (end - at < width) *--at = '0';
    if (is_negative) *--at = '-';
    return at;
}

static int format_to(char *out, const char *format, va_list *more) {
    int n = 0;
    for (; *format; format++) {
        char room[32] = {0};
        const char *text = room;
        int longs = 0, width = 0;
        room[0] = *format;
        if (*format == '%') {
            while (*++format == 'l' || *format == 'z' || (*format >= '0' && *format <= '9')) {
                longs += *format == 'l';
                if (*format >= '0' && *format <= '9') width = width * 10 + *format - '0';
            }
            if (*format == 's') text = va_arg(*more, const char *);
            else if (*format == 'c') room[0] = (char)va_arg(*more, int);
            else if (*format != '%') text = number(room + 31, *format, longs, width, more);
        }
        for (; *text; text++, n++) {
            if (out) out[n] = *text;
            else putchar(*text);
        }
    }
    if (out) out[n] = 0;
    return n;
}

int printf(const char *format, ...) {
    va_list more;
    int n;
    va_start(more, format);
    n = format_to(NULL, format, &more);
    va_end(more);
    return n;
}

int sprintf(char *out, const char *format, ...) {
    va_list more;
    int n;
    va_start(more, format);
    n = format_to(out, format, &more);
    va_end(more);
    return n;
}

/* ---- Memory: blocks of a power of two, each after 16 octets with its exponent; those that are free are chained. ---- */

static unsigned char heap[48 << 20] __attribute__((aligned(16)));
static size_t used;
static void *chains[33];

void *malloc(size_t n) {
    int k = 5;
    unsigned char *at;
    while (((size_t)1 << k) < n + 16) k++;
    at = chains[k];
    if (at) {
        chains[k] = *(void **)(void *)(at + 16);
    } else {
        if (used + ((size_t)1 << k) > sizeof heap) return NULL;
        at = heap + used;
        used += (size_t)1 << k;
        *(int *)(void *)at = k;
    }
    return at + 16;
}

void free(void *place) {
    unsigned char *at = place;
    if (!place) return;
    *(void **)place = chains[*(int *)(void *)(at - 16)];
    chains[*(int *)(void *)(at - 16)] = at - 16;
}

void *calloc(size_t count, size_t each) {
    void *at = malloc(count * each);
    return at ? memset(at, 0, count * each) : NULL;
}

void *realloc(void *place, size_t n) {
    void *at = malloc(n);
    if (at && place) {
        const size_t had = ((size_t)1 << *(int *)(void *)((unsigned char *)place - 16)) - 16;
        memcpy(at, place, had < n ? had : n);
        free(place);
    }
    return at;
}

/* ---- What the compiler calls for numbers of 64 bits (docs/C.md has the list for the libraries). ---- */

typedef union {
    uint64_t whole;
    uint32_t half[2]; /* the higher one first */
} number64;

uint64_t __lshrdi3(uint64_t a, int n) {
    number64 it = {a};
    if (n >= 32) return it.half[0] >> (n - 32);
    if (n > 0) {
        it.half[1] = it.half[1] >> n | it.half[0] << (32 - n);
        it.half[0] >>= n;
    }
    return it.whole;
}

uint64_t __ashldi3(uint64_t a, int n) {
    number64 it = {a};
    if (n > 0) {
        it.half[0] = n >= 32 ? it.half[1] << (n - 32) : it.half[0] << n | it.half[1] >> (32 - n);
        it.half[1] = n >= 32 ? 0 : it.half[1] << n;
    }
    return it.whole;
}

static uint64_t divided(uint64_t of, uint64_t by, uint64_t *rest) {
    uint64_t quotient = 0, left = 0;
    for (int k = 0; k < 64; k++) {
        left = left << 1 | of >> 63;
        of <<= 1;
        quotient <<= 1;
        if (left >= by) {
            left -= by;
            quotient |= 1;
        }
    }
    *rest = left;
    return quotient;
}

uint64_t __udivdi3(uint64_t of, uint64_t by) {
    uint64_t rest;
    return divided(of, by, &rest);
}

uint64_t __umoddi3(uint64_t of, uint64_t by) {
    uint64_t rest;
    (void)divided(of, by, &rest);
    return rest;
}

/* ---- The beginning and the end. ---- */

void exit(int status) {
    printf("status %d\n", status);
    for (;;) {
    }
}

void begin(void) {
    static char name[] = "test", calls[] = CALLS;
    static char *words[] = {name, calls, NULL};
    exit(main(2, words));
}
