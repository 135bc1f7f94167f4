/* The module _meanwhile, for tools/check/native: what runs at an allocation of memory that the compiled part causes. `_native` is
 * compiled so that it says where each of its functions begins and ends (native_within.c). */
#include <Python.h>

#include <stdbool.h>

static const PyMemAllocatorDomain domains[] = {PYMEM_DOMAIN_MEM, PYMEM_DOMAIN_OBJ};
static PyMemAllocatorEx below[2];

/* how many functions of `_native` this thread is in */
static _Thread_local int depth;
static _Thread_local bool is_running;
/* the collector runs at each of the first so many allocations since it was said, and then at some */
enum { EACH = 300, THEN = 1009 };
static bool always;
static unsigned long met;
/* what is called at the allocation of this number in a call: NULL where none is under way */
static PyObject *action;
static unsigned long allocations, chosen;

void meanwhile_begins(void);
void meanwhile_ends(void);

void meanwhile_begins(void)
{
    depth++;
}

void meanwhile_ends(void)
{
    depth--;
}

static void act(void)
{
#if PY_VERSION_HEX >= 0x030C0000
    PyObject *raised = PyErr_GetRaisedException();
#else
    PyObject *type, *value, *traceback;
    PyErr_Fetch(&type, &value, &traceback);
#endif
    PyObject *result = action == NULL ? NULL : PyObject_CallFunctionObjArgs(action, NULL);
    if (action != NULL && result == NULL) PyErr_WriteUnraisable(action);
    Py_XDECREF(result);
    if (always || action != NULL) PyGC_Collect();
#if PY_VERSION_HEX >= 0x030C0000
    PyErr_SetRaisedException(raised);
#else
    PyErr_Restore(type, value, traceback);
#endif
}

static void meet(void)
{
    if (depth == 0 || is_running || !(always || action != NULL)) return;
    if (always && met++ > EACH && met % THEN != 0) return;
    if (!always && ++allocations != chosen) return;
    is_running = true;
    act();
    is_running = false;
}

static void *hook_malloc(void *context, size_t size)
{
    PyMemAllocatorEx *allocator = context;
    meet();
    return allocator->malloc(allocator->ctx, size);
}

static void *hook_calloc(void *context, size_t count, size_t size)
{
    PyMemAllocatorEx *allocator = context;
    meet();
    return allocator->calloc(allocator->ctx, count, size);
}

static void *hook_realloc(void *context, void *block, size_t size)
{
    PyMemAllocatorEx *allocator = context;
    meet();
    return allocator->realloc(allocator->ctx, block, size);
}

static void hook_free(void *context, void *block)
{
    PyMemAllocatorEx *allocator = context;
    allocator->free(allocator->ctx, block);
}

/* call(function, arguments, named, nth, action): the dict of named arguments is handed over as it is, as Python 3.8 does. */
static PyObject *call(PyObject *module, PyObject *arguments)
{
    PyObject *function, *given, *named, *what;
    (void)module;
    if (!PyArg_ParseTuple(arguments, "OO!OkO", &function, &PyTuple_Type, &given, &named, &chosen, &what)) return NULL;
    allocations = 0;
    action = what;
    PyObject *result = PyObject_Call(function, given, named == Py_None ? NULL : named);
    action = NULL;
    return result;
}

static PyObject *last_allocations(PyObject *module, PyObject *nothing)
{
    (void)module, (void)nothing;
    return PyLong_FromUnsignedLong(allocations);
}

/* collect_always(is_on): a full collection at each allocation, or where there are many at each of the first. */
static PyObject *collect_always(PyObject *module, PyObject *is_on)
{
    (void)module;
    always = is_on == Py_True;
    met = 0;
    Py_RETURN_NONE;
}

static PyMethodDef functions[] = {
    {"call", call, METH_VARARGS, NULL},
    {"allocations", last_allocations, METH_NOARGS, NULL},
    {"collect_always", collect_always, METH_O, NULL},
    {NULL, NULL, 0, NULL},
};

static PyModuleDef definition = {PyModuleDef_HEAD_INIT, .m_name = "_meanwhile", .m_size = -1, .m_methods = functions};

PyMODINIT_FUNC PyInit__meanwhile(void)
{
    for (int index = 0; index < 2; index++) {
        PyMemAllocatorEx hooks = {&below[index], hook_malloc, hook_calloc, hook_realloc, hook_free};
        PyMem_GetAllocator(domains[index], &below[index]);
        PyMem_SetAllocator(domains[index], &hooks);
    }
    return PyModule_Create(&definition);
}
