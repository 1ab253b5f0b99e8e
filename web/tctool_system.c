/* What tctool asks of its system (tctool_system.h), as WebAssembly: words and files come by five functions of the page,
 * or of another host, and memory is taken here. An instance of the module runs one command. Tested, not proved. */
#include "tctool_system.h"

#include <stdlib.h>
#include <string.h>

#define HOST(name) __attribute__((import_module("host"), import_name(name)))

HOST("word") int32_t host_word(uint32_t place, unsigned char *to, uint32_t room);
HOST("open") int32_t host_open(const char *name);
HOST("read") int32_t host_read(int file, unsigned char *to, uint32_t count);
HOST("write") int32_t host_write(int file, const unsigned char *from, uint32_t count);
HOST("end") double host_end(int file);

uint32_t tctool_error;

/* What a call of the host returned, -1 where that is below 0: then it is less the error, as Linux numbers it, or -1. */
static int32_t said(int32_t got)
{
    if (got >= 0) return got;
    tctool_error = got != -1 ? (uint32_t)-got : 5;
    return -1;
}

static uint32_t at_most_32_bits(uint64_t count)
{
    return count < INT32_MAX ? (uint32_t)count : INT32_MAX;
}

int64_t tctool_word(uint64_t place, unsigned char *to, uint64_t room)
{
    return host_word(at_most_32_bits(place), to, at_most_32_bits(room));
}

int32_t tctool_open(const char *name, uint32_t flags)
{
    return said((flags & 3) == 0 ? host_open(name) : -1);
}

int32_t tctool_close(int file)
{
    return said(file < 0 ? -1 : 0);
}

int64_t tctool_read(int file, unsigned char *to, uint64_t count)
{
    return said(host_read(file, to, at_most_32_bits(count)));
}

int64_t tctool_write(int file, const unsigned char *from, uint64_t count)
{
    return said(host_write(file, from, at_most_32_bits(count)));
}

int64_t tctool_end(int file)
{
    const double octets = host_end(file);
    return octets >= 0 ? (int64_t)octets : said(-1);
}

/* What is said goes to the page, or to a program. */
int32_t tctool_is_terminal(int file)
{
    (void)file;
    return 0;
}

/* Memory is in blocks of 2^order octets, of which the first 16 say the order; free blocks of an order are in a list. */
enum { HEAD = 16, LEAST = 5, GREATEST = 30, PAGE = 65536 };
extern unsigned char __heap_base;
static uintptr_t top, end;
static void *free_blocks[GREATEST + 1];

/* A new block above all others; NULL where memory does not grow. */
static unsigned char *new_block(size_t size)
{
    unsigned char *block;
    if (top == 0) {
        top = ((uintptr_t)&__heap_base + HEAD - 1) & ~(uintptr_t)(HEAD - 1);
        end = (uintptr_t)__builtin_wasm_memory_size(0) * PAGE;
    }
    if (end - top < size) {
        const size_t pages = (size - (end - top) + PAGE - 1) / PAGE;
        if (__builtin_wasm_memory_grow(0, pages) == SIZE_MAX) return NULL;
        end += pages * PAGE;
    }
    block = (unsigned char *)top;
    top += size;
    return block;
}

void *malloc(size_t count)
{
    uint32_t order = LEAST;
    unsigned char *block;
    if (count > ((size_t)1 << GREATEST) - HEAD) return NULL;
    while (((size_t)1 << order) < count + HEAD) order++;
    block = free_blocks[order];
    if (block != NULL) memcpy(&free_blocks[order], block + HEAD, sizeof(void *));
    else if ((block = new_block((size_t)1 << order)) == NULL) return NULL;
    memcpy(block, &order, sizeof order);
    return block + HEAD;
}

void free(void *at)
{
    unsigned char *block = at;
    uint32_t order;
    if (at == NULL) return;
    block -= HEAD;
    memcpy(&order, block, sizeof order);
    memcpy(at, &free_blocks[order], sizeof(void *));
    free_blocks[order] = block;
}

void *realloc(void *at, size_t count)
{
    uint32_t order;
    void *to;
    if (at == NULL) return malloc(count);
    memcpy(&order, (unsigned char *)at - HEAD, sizeof order);
    if (count <= ((size_t)1 << order) - HEAD) return at;
    if ((to = malloc(count)) == NULL) return NULL;
    memcpy(to, at, ((size_t)1 << order) - HEAD);
    free(at);
    return to;
}
