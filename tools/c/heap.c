/* The three functions by which the kit's code asks for memory, over those of the C library, for a processor for which the kit
   has no archive of them. It takes no header, so that the kit alone compiles it. */
typedef __SIZE_TYPE__ size_t;
typedef __UINT64_TYPE__ uint64_t;

void *malloc(size_t size);
void *realloc(void *at, size_t size);
void free(void *at);

/* what the kit's code expects: `ok` is 1 where there is memory, and `at` is never null */
struct got {
    uint64_t ok;
    void *at;
};
static struct got got(void *at)
{
    static char none;
    struct got got = {at != 0, at ? at : &none};
    return got;
}

/* the kit asks for no alignment past 16, which malloc gives */
struct got rattle_alloc(size_t size, size_t align)
{
    (void)align;
    return got(malloc(size ? size : 1));
}

struct got rattle_realloc(void *at, size_t old_size, size_t size, size_t align)
{
    (void)old_size;
    (void)align;
    return got(realloc(at, size ? size : 1));
}

void rattle_dealloc(void *at)
{
    free(at);
}
