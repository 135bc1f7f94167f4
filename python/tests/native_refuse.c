/* The module _refuse, for tools/check/native: a call in which the Nth allocation of memory is refused, alone or with all behind it.
 *
 * An allocation is a malloc, calloc or realloc of Python's allocators, or of the library that is linked into `_native`, whose
 * calls native_wrap.c sends here. It counts what the library holds too. */
#include <Python.h>

#include <pthread.h>
#include <stdbool.h>

static const PyMemAllocatorDomain domains[] = {PYMEM_DOMAIN_RAW, PYMEM_DOMAIN_MEM, PYMEM_DOMAIN_OBJ};
static PyMemAllocatorEx below[3];

static bool is_armed, and_behind;
static pthread_t armed_thread;
static unsigned long allocations, refused_one;
static long held;

/* Whether this allocation is refused. */
bool refuse_allocation(void);
bool refuse_allocation(void)
{
    if (!is_armed || !pthread_equal(pthread_self(), armed_thread)) return false;
    allocations++;
    return allocations == refused_one || (and_behind && allocations > refused_one);
}

/* What the library holds grew by so many blocks. */
void refuse_count(long blocks);
void refuse_count(long blocks)
{
    __atomic_add_fetch(&held, blocks, __ATOMIC_SEQ_CST);
}

static void *hook_malloc(void *context, size_t size)
{
    PyMemAllocatorEx *allocator = context;
    return refuse_allocation() ? NULL : allocator->malloc(allocator->ctx, size);
}

static void *hook_calloc(void *context, size_t count, size_t size)
{
    PyMemAllocatorEx *allocator = context;
    return refuse_allocation() ? NULL : allocator->calloc(allocator->ctx, count, size);
}

static void *hook_realloc(void *context, void *block, size_t size)
{
    PyMemAllocatorEx *allocator = context;
    return refuse_allocation() ? NULL : allocator->realloc(allocator->ctx, block, size);
}

static void hook_free(void *context, void *block)
{
    PyMemAllocatorEx *allocator = context;
    allocator->free(allocator->ctx, block);
}

/* call(function, arguments, nth, and_behind): nth is 0 where none is refused. */
static PyObject *call(PyObject *module, PyObject *arguments)
{
    PyObject *function, *given;
    unsigned long nth;
    int behind;
    (void)module;
    if (!PyArg_ParseTuple(arguments, "OO!kp", &function, &PyTuple_Type, &given, &nth, &behind)) return NULL;
    allocations = 0;
    refused_one = nth;
    and_behind = behind && nth > 0;
    armed_thread = pthread_self();
    is_armed = true;
    PyObject *result = PyObject_Call(function, given, NULL);
    is_armed = false;
    return result;
}

static PyObject *last_allocations(PyObject *module, PyObject *nothing)
{
    (void)module, (void)nothing;
    return PyLong_FromUnsignedLong(allocations);
}

static PyObject *library_blocks(PyObject *module, PyObject *nothing)
{
    (void)module, (void)nothing;
    return PyLong_FromLong(held);
}

static PyMethodDef functions[] = {
    {"call", call, METH_VARARGS, NULL},
    {"allocations", last_allocations, METH_NOARGS, NULL},
    {"blocks", library_blocks, METH_NOARGS, NULL},
    {NULL, NULL, 0, NULL},
};

static PyModuleDef definition = {PyModuleDef_HEAD_INIT, .m_name = "_refuse", .m_size = -1, .m_methods = functions};

PyMODINIT_FUNC PyInit__refuse(void)
{
    for (int index = 0; index < 3; index++) {
        PyMemAllocatorEx hooks = {&below[index], hook_malloc, hook_calloc, hook_realloc, hook_free};
        PyMem_GetAllocator(domains[index], &below[index]);
        PyMem_SetAllocator(domains[index], &hooks);
    }
    return PyModule_Create(&definition);
}
