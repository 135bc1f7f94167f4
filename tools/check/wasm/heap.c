/* Tries the allocator of tools/c/wasm.c on this machine, by random calls: each block keeps what was written to it, lies beside all
   others and is aligned, and what was given back is given away again. The memory of the module is a stretch of addresses here,
   which begins at __heap_base and grows by pages, up to a limit. It prints what is wrong, and ends with 1. */
#include <stdint.h>
#include <stdio.h>
#include <stdlib.h>
#include <string.h>
#include <sys/mman.h>

static size_t memory_size(int memory);
static size_t memory_grow(int memory, size_t pages);
#define __builtin_wasm_memory_size memory_size
#define __builtin_wasm_memory_grow memory_grow
#include "../../c/wasm.c"

enum { BLOCKS = 20000, TURNS = 60, LIMIT = 4096 };
static size_t taken, most;

static size_t memory_size(int memory)
{
    (void)memory;
    return (size_t)&__heap_base / PAGE + taken;
}

static size_t memory_grow(int memory, size_t pages)
{
    size_t old = memory_size(memory);
    if (taken + pages > most) return (size_t)-1;
    taken += pages;
    return old;
}

static uint64_t seed = 64;
static uint64_t drawn(uint64_t below)
{
    seed ^= seed << 13;
    seed ^= seed >> 7;
    seed ^= seed << 17;
    return seed % below;
}

/* as a lock has them: most are tiny, some are nodes of a map, few are large */
static size_t drawn_size(void)
{
    switch (drawn(16)) {
    case 0: return drawn(3000);
    case 1: return drawn(64) ? drawn(400) : drawn(3 << 20);
    case 2: case 3: return 900 + drawn(200);
    default: return drawn(80);
    }
}

static struct kept {
    unsigned char *at;
    size_t size;
    unsigned char byte;
} kept[BLOCKS];

static void fail(const char *what)
{
    printf("the allocator: %s\n", what);
    exit(1);
}

static void judge(const struct kept *one)
{
    size_t place;
    for (place = 0; place < one->size; place++)
        if (one->at[place] != one->byte) fail("a block lost what was written to it");
}

static void fill(struct kept *one, struct got got, size_t size)
{
    if ((size_t)got.at % UNIT) fail("a block isn't aligned");
    one->at = got.at;
    one->size = size;
    one->byte = (unsigned char)drawn(256);
    memset(one->at, one->byte, size);
}

static void turn(struct kept *one)
{
    size_t size = drawn_size(), kept_size;
    struct got got;
    if (!one->at) {
        got = rattle_alloc(size, 1);
        if (got.ok) fill(one, got, size);
        return;
    }
    judge(one);
    if (drawn(3)) {
        rattle_dealloc(one->at);
        one->at = 0;
        return;
    }
    got = rattle_realloc(one->at, one->size, size, 1);
    if (!got.ok) return; /* it stays as it was */
    kept_size = one->size < size ? one->size : size;
    one->at = got.at;
    one->size = kept_size;
    judge(one);
    fill(one, got, size);
}

int main(int count, char **words)
{
    size_t after = 0, place;
    int round;
    most = count > 1 ? strtoul(words[1], 0, 10) : LIMIT;
    if (mmap(&__heap_base, (size_t)LIMIT * PAGE, PROT_READ | PROT_WRITE, MAP_PRIVATE | MAP_ANONYMOUS | MAP_FIXED_NOREPLACE, -1, 0) != (void *)&__heap_base)
        fail("there is no memory at its address");
    for (round = 0; round < TURNS; round++) {
        for (place = 0; place < 4 * BLOCKS; place++) turn(&kept[drawn(BLOCKS)]);
        for (place = 0; place < BLOCKS; place++) {
            if (kept[place].at) judge(&kept[place]), rattle_dealloc(kept[place].at);
            kept[place].at = 0;
        }
        if (round == TURNS / 2) after = taken;
    }
    /* what a round gives back is enough for each round behind it */
    if (taken > after + after / 4) fail("it grew on, though all was given back");
    printf("%zu pages\n", taken);
    return 0;
}
