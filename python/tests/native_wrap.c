/* Linked into a `_native` that is tried: the library's requests of memory ask the module _refuse (native_refuse.c). */
#include <errno.h>
#include <stdbool.h>
#include <stddef.h>

bool refuse_allocation(void);
void refuse_count(long blocks);

void *__real_malloc(size_t size);
void *__real_calloc(size_t count, size_t size);
void *__real_realloc(void *block, size_t size);
void __real_free(void *block);
void *__wrap_malloc(size_t size);
void *__wrap_calloc(size_t count, size_t size);
void *__wrap_realloc(void *block, size_t size);
void __wrap_free(void *block);

static bool is_refused(void)
{
    if (!refuse_allocation()) return false;
    errno = ENOMEM;
    return true;
}

static void *counted(void *block)
{
    refuse_count(block != NULL);
    return block;
}

void *__wrap_malloc(size_t size)
{
    return is_refused() ? NULL : counted(__real_malloc(size));
}

void *__wrap_calloc(size_t count, size_t size)
{
    return is_refused() ? NULL : counted(__real_calloc(count, size));
}

void *__wrap_realloc(void *block, size_t size)
{
    if (is_refused()) return NULL;
    return block == NULL ? counted(__real_realloc(block, size)) : __real_realloc(block, size);
}

void __wrap_free(void *block)
{
    refuse_count(-(block != NULL));
    __real_free(block);
}
