/* What the module of tools/make/wasm has beside the code of the kit: the three functions by which that code asks for
   memory, and two by which the host does. It takes no header, which the kit doesn't have, and calls nothing.

   The allocator is two well-known ones. Of a small block there are many at a time, and it lies in a page of blocks of one size,
   as those of mimalloc: a page keeps a list of its free blocks, and goes where it came from when all are free. Pages and
   large blocks come from two-level segregated lists (TLSF): a block that is free stands in the list of its size, 16 lists
   between one power of two and the next; bits say which lists have blocks. Blocks lie behind one another, and a block that is
   freed joins its free neighbours. Each call takes a bounded number of steps, but for what is copied. */
typedef __SIZE_TYPE__ size_t;
typedef __UINT8_TYPE__ uint8_t;
typedef __UINT32_TYPE__ uint32_t;
typedef __UINT64_TYPE__ uint64_t;

#define PAGE 65536
/* how much the memory grows at a time, at least: an engine may move the whole of it then */
#define STEP ((size_t)32 << 20)
#define UNIT 16
#define ROWS 44
#define MOST ((size_t)1 << 46)

/* the head of a block, and, where it is free, its place in a list. The bytes that it gives away begin at `next` */
struct block {
    struct block *before; /* the block that ends where this one begins; null for the first */
    size_t size;          /* of what lies behind the head, a multiple of 16; with 1 added where the block is free */
    struct block *next, *last;
};
#define HEAD __builtin_offsetof(struct block, next)
_Static_assert(HEAD == UNIT && sizeof(struct block) == 2 * UNIT, "a head has 16 bytes, as a place in a list");

extern unsigned char __heap_base;
static struct block *lists[ROWS][16];
static uint64_t rows;
static uint32_t columns[ROWS];
/* the last block, which has no bytes and is never free: the end of the memory that was taken */
static struct block *end;

static size_t size_of(const struct block *block) { return block->size & ~(size_t)1; }
static int is_free(const struct block *block) { return block->size & 1; }
static struct block *behind(struct block *block)
{
    return (struct block *)((unsigned char *)block + HEAD + size_of(block));
}
static struct block *block_of(void *at) { return (struct block *)((unsigned char *)at - HEAD); }

/* the list of a size, as a row and a column */
static unsigned row_of(size_t size) { return size < 256 ? 0 : 56 - (unsigned)__builtin_clzll(size); }
static unsigned column_of(size_t size, unsigned row) { return (unsigned)(size >> (row ? row + 3 : 4)) & 15; }

static void put_in(struct block *block)
{
    unsigned row = row_of(size_of(block)), column = column_of(size_of(block), row);
    struct block *first = lists[row][column];
    block->size |= 1;
    block->last = 0;
    block->next = first;
    if (first) first->last = block;
    lists[row][column] = block;
    columns[row] |= 1u << column;
    rows |= (uint64_t)1 << row;
}

static void take_out(struct block *block)
{
    unsigned row = row_of(size_of(block)), column = column_of(size_of(block), row);
    if (block->next) block->next->last = block->last;
    if (block->last) {
        block->last->next = block->next;
    } else {
        lists[row][column] = block->next;
        if (!block->next) {
            columns[row] &= ~(1u << column);
            if (!columns[row]) rows &= ~((uint64_t)1 << row);
        }
    }
    block->size &= ~(size_t)1;
}

/* gives back a block that is in no list, with its free neighbours */
static void give(struct block *block)
{
    struct block *other = behind(block);
    if (is_free(other)) {
        take_out(other);
        block->size += HEAD + other->size;
    }
    other = block->before;
    if (other && is_free(other)) {
        take_out(other);
        other->size += HEAD + block->size;
        block = other;
    }
    behind(block)->before = block;
    put_in(block);
}

/* gives back what a block that is in no list has beyond this size */
static void cut(struct block *block, size_t size)
{
    struct block *rest;
    if (block->size < size + sizeof(struct block)) return;
    rest = (struct block *)((unsigned char *)block + HEAD + size);
    rest->before = block;
    rest->size = block->size - size - HEAD;
    block->size = size;
    behind(rest)->before = rest;
    give(rest);
}

/* a free block of at least this size, out of its list; or null */
static struct block *find(size_t size)
{
    unsigned row, column;
    uint64_t more;
    uint32_t here;
    struct block *block;
    /* the first list whose blocks are all large enough */
    size_t least = size < 256 ? size : size + ((size_t)1 << (row_of(size) + 3)) - 1;
    row = row_of(least);
    column = column_of(least, row);
    here = columns[row] & ~0u << column;
    if (!here) {
        more = rows & ~(uint64_t)0 << row << 1;
        if (!more) return 0;
        row = (unsigned)__builtin_ctzll(more);
        here = columns[row];
    }
    block = lists[row][__builtin_ctz(here)];
    take_out(block);
    return block;
}

/* more memory behind the end, with a free block of at least this size; 0 where the host gives none */
static int grow(size_t size)
{
    size_t pages = __builtin_wasm_memory_size(0), step = pages * PAGE / 8, old;
    unsigned char *from, *to;
    struct block *block;
    if (step < STEP) step = STEP;
    if (!end) {
        /* what lies between the data and the end of the first memory counts as well */
        from = (unsigned char *)(((size_t)&__heap_base + UNIT - 1) & ~(size_t)(UNIT - 1));
    } else {
        from = (unsigned char *)end;
    }
    /* find looks at what is up to a 16th larger */
    if (step < size + size / 8 + 4 * sizeof(struct block)) step = size + size / 8 + 4 * sizeof(struct block);
    step = (step + PAGE - 1) / PAGE;
    old = __builtin_wasm_memory_grow(0, step);
    /* the second where the module was lowered to a memory of 32 bits */
    if (old == (size_t)-1 || old == 0xffffffff) return 0;
    to = (unsigned char *)((old + step) * PAGE);
    block = (struct block *)from;
    if (!end) block->before = 0;
    block->size = (size_t)(to - from) - 2 * HEAD;
    end = (struct block *)(to - HEAD);
    end->size = 0;
    end->before = block;
    give(block);
    return 1;
}

/* a block of at least this size; null where there is none */
static struct block *obtain(size_t size)
{
    struct block *block = find(size);
    if (!block && grow(size)) block = find(size);
    return block;
}

static void *get_large(size_t size)
{
    struct block *block = obtain(size);
    if (!block) return 0;
    cut(block, size);
    return (unsigned char *)block + HEAD;
}

/* ---- small blocks */

#define MOST_SMALL 1024
/* of a page, what isn't the head of the next block */
#define PAGE_BYTES (PAGE - HEAD)

struct small {
    struct small *next;
};
struct page {
    struct page *next, *last;  /* of the same size, in the list of those that have a free block */
    struct small *free;        /* what was given back */
    uint32_t used, fresh;      /* how many blocks are given away; where those begin that never were */
};
_Static_assert(sizeof(struct page) % UNIT == 0, "blocks are aligned to 16 bytes");
/* by the size in units of 16 bytes */
static struct page *pages[MOST_SMALL / UNIT + 1];
/* of each 64 kB of memory, up to the 16 GB that an engine gives: the size of its blocks where they are a page; else 0 */
static uint8_t units[1 << 18];

static size_t number_of(const void *at) { return (size_t)at / PAGE; }
/* the size of a small block; 0 of a large one */
static size_t small_size(const void *at) { return number_of(at) < sizeof units ? units[number_of(at)] * (size_t)UNIT : 0; }
static int is_full(const struct page *page, size_t size) { return !page->free && page->fresh + size > PAGE_BYTES; }

static void put_page(struct page *page, size_t size)
{
    struct page **first = &pages[size / UNIT];
    page->last = 0;
    page->next = *first;
    if (*first) (*first)->last = page;
    *first = page;
}

static void take_page(struct page *page, size_t size)
{
    if (page->next) page->next->last = page->last;
    if (page->last) page->last->next = page->next;
    else pages[size / UNIT] = page->next;
}

/* a page of blocks of this size, in its list; null where there is no memory for one */
static struct page *new_page(size_t size)
{
    struct block *block = obtain(2 * PAGE + UNIT), *front = block;
    struct page *page;
    size_t from;
    if (!block) return 0;
    from = (size_t)block + HEAD;
    page = (struct page *)((from + PAGE - 1) & ~(size_t)(PAGE - 1));
    if ((size_t)page - from == UNIT) page = (struct page *)((size_t)page + PAGE);
    if (number_of(page) >= sizeof units) {
        give(block);
        return 0;
    }
    if ((size_t)page != from) {
        block = block_of(page);
        block->before = front;
        block->size = front->size - ((size_t)page - from);
        front->size -= block->size + HEAD;
        behind(block)->before = block;
        give(front);
    }
    cut(block, PAGE_BYTES);
    page->free = 0;
    page->used = 0;
    page->fresh = sizeof(struct page);
    units[number_of(page)] = (uint8_t)(size / UNIT);
    put_page(page, size);
    return page;
}

static void *get_small(size_t size)
{
    struct page *page = pages[size / UNIT];
    struct small *block;
    if (!page) page = new_page(size);
    if (!page) return get_large(size);
    block = page->free;
    if (block) {
        page->free = block->next;
    } else {
        block = (struct small *)((unsigned char *)page + page->fresh);
        page->fresh += (uint32_t)size;
    }
    page->used++;
    if (is_full(page, size)) take_page(page, size);
    return block;
}

static void give_small(void *at, size_t size)
{
    struct page *page = (struct page *)((size_t)at & ~(size_t)(PAGE - 1));
    struct small *block = at;
    if (is_full(page, size)) put_page(page, size);
    block->next = page->free;
    page->free = block;
    page->used--;
    /* the only one with a free block stays */
    if (page->used || (!page->next && !page->last)) return;
    take_page(page, size);
    units[number_of(page)] = 0;
    give(block_of(page));
}

/* ---- blocks of any size */

static size_t rounded(size_t size) { return size ? (size + UNIT - 1) & ~(size_t)(UNIT - 1) : UNIT; }

static void *get(size_t size)
{
    if (size > MOST) return 0;
    size = rounded(size);
    return size <= MOST_SMALL ? get_small(size) : get_large(size);
}

static void put_back(void *at)
{
    size_t size = small_size(at);
    if (size) give_small(at, size);
    else give(block_of(at));
}

/* makes a large block one of this size where it lies, if there is room */
static int is_resized(struct block *block, size_t size)
{
    struct block *other = behind(block);
    if (size > block->size && is_free(other) && block->size + HEAD + size_of(other) >= size) {
        take_out(other);
        block->size += HEAD + other->size;
        behind(block)->before = block;
    }
    if (size > block->size) return 0;
    cut(block, size);
    return 1;
}

/* what the kit's code calls, in the form of its c/heap.c: `ok` is 1 where there is memory, and `at` is never null */
struct got {
    uint64_t ok;
    void *at;
};
static struct got got(void *at)
{
    struct got got = {at != 0, at ? at : (void *)lists};
    return got;
}

struct got rattle_alloc(size_t size, size_t align)
{
    (void)align; /* each block is aligned to 16, as the kit asks of malloc */
    return got(get(size));
}

void rattle_dealloc(void *at)
{
    put_back(at);
}

struct got rattle_realloc(void *at, size_t old_size, size_t size, size_t align)
{
    size_t small = small_size(at), asked = rounded(size);
    void *new;
    (void)align;
    if (size > MOST) return got(0);
    /* a block that would be half empty moves */
    if (small ? asked <= small && asked > small / 2 : is_resized(block_of(at), asked)) return got(at);
    new = get(size);
    if (new) {
        __builtin_memcpy(new, at, old_size < size ? old_size : size);
        put_back(at);
    }
    return got(new);
}

/* room for what the host hands over; null where there is none */
__attribute__((export_name("room"))) void *room(size_t size)
{
    return get(size);
}

__attribute__((export_name("free_room"))) void free_room(void *at)
{
    if (at) put_back(at);
}
