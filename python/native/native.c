/* The module itself: its state, and what stands in it. */
#include "native.h"

#include <stdlib.h>

enum { ABI = 1 };

State *state_of(PyObject *module)
{
    State **place = PyModule_GetState(module);
    return place == NULL ? NULL : *place;
}

State several, *single;

void leave_state(State *state)
{
    if (--state->users > 0) return;
    __atomic_store_n(&single, &several, __ATOMIC_SEQ_CST);
    while (state->spare_asked.count > 0) PyMem_Free(state->spare_asked.each[--state->spare_asked.count]);
    PyMem_Free(state);
}

bool is_of(PyObject *object, PyTypeObject *type)
{
    return Py_TYPE(object) == type || (type != NULL && PyType_IsSubtype(Py_TYPE(object), type));
}

bool add_type(PyObject *module, const char *name, PyTypeObject **place, PyType_Spec *spec)
{
    *place = type_of_spec(module, spec);
    if (*place == NULL) return false;
    Py_INCREF(*place);
    if (PyModule_AddObject(module, name, (PyObject *)*place) == 0) return true;
    Py_DECREF(*place);
    return false;
}

int visit_type(PyObject *self, visitproc visit, void *arg)
{
    return visit_type_in(self, visit, arg, visit_type);
}

PyObject *no_new(PyTypeObject *type, PyObject *arguments, PyObject *named)
{
    (void)arguments, (void)named;
    PyErr_Format(PyExc_TypeError, "%R isn't made by itself", (PyObject *)type);
    return NULL;
}

PyObject *new_object(State *state, PyTypeObject *type)
{
    if (type == NULL) {
        PyErr_SetString(PyExc_RuntimeError, "pylock: the module was taken apart");
        return NULL;
    }
    /* the collector may run before the object has its type, and the layer may have said meanwhile that another is used */
    hold((PyObject *)type);
    PyObject *self = PyType_GenericAlloc(type, 0);
    let_go((PyObject *)type);
    if (self == NULL) return NULL;
    ((Object *)self)->state = state;
    state->users++;
    return self;
}

PyObject *usual_reduce(PyObject *self, PyObject *protocol)
{
    return PyObject_CallMethod((PyObject *)&PyBaseObject_Type, "__reduce_ex__", "(OO)", self, protocol);
}

void free_object(PyObject *self)
{
    PyTypeObject *type = Py_TYPE(self);
    leave_state(((Object *)self)->state);
    /* what all of the module's types have, and classes that are made from them */
    PyObject_GC_Del(self);
    /* each instance of a type that was made at run time holds it */
    Py_DECREF(type);
}

/* No more is kept from here on. What frees memory looks at the type. */
static void clear_spares(Spares *spares)
{
    spares->type = NULL;
    while (spares->count > 0) PyObject_GC_Del(spares->each[--spares->count]);
}

/* ---- what the Python layer brings ---- */

static bool is_class_of(PyObject *object, PyTypeObject *base)
{
    if (base != NULL && PyType_Check(object) && PyType_IsSubtype((PyTypeObject *)object, base)) return true;
    PyErr_SetString(PyExc_TypeError, "expected classes that are made from those of this module");
    return false;
}

void replace(PyObject **place, PyObject *object)
{
    PyObject *before = *place;
    Py_INCREF(object);
    *place = object;
    Py_XDECREF(before);
}

static void clear_tags(State *state)
{
    for (int place = 0; place < MOST_TAGS; place++) Py_CLEAR(state->tags[place].tag);
}

static PyObject *use_refusals(PyObject *module, PyObject *const *arguments, Py_ssize_t count)
{
    State *state = state_of(module);
    if (!check_count("use_refusals", count, 2)) return NULL;
    replace(&state->refuse, arguments[0]);
    replace(&state->refuse_input, arguments[1]);
    for (int number = 0; number < MOST_REFUSALS; number++) Py_CLEAR(state->refusals[number]);
    Py_RETURN_NONE;
}

/* Whether what an attribute of both types tells is the same: -1 with an exception. */
static int have_equal(PyTypeObject *type, PyTypeObject *base, const char *name)
{
    PyObject *one = PyObject_GetAttrString((PyObject *)type, name), *other = one == NULL ? NULL : PyObject_GetAttrString((PyObject *)base, name);
    int are_equal = other == NULL ? -1 : PyObject_RichCompareBool(one, other, Py_EQ);
    Py_XDECREF(one);
    Py_XDECREF(other);
    return are_equal;
}

/* Whether objects of a class have no more in them than those of its base: -1 with an exception. */
static int is_like(PyTypeObject *type, PyTypeObject *base)
{
    static const char *const names[] = {"__basicsize__", "__dictoffset__", "__weakrefoffset__"};
    int is_one = 1;
    for (size_t index = 0; is_one == 1 && index < sizeof names / sizeof *names; index++) is_one = have_equal(type, base, names[index]);
    return is_one;
}

/* Makes a class that is made from a base the one of which results are, and its objects' memory the one that is kept: false with
 * an exception. */
static bool use_class(PyObject *type, PyTypeObject *base, PyTypeObject **place, Spares *spares)
{
    if (!is_class_of(type, base)) return false;
    int has_spares = is_like((PyTypeObject *)type, base);
    if (has_spares < 0) return false;
    clear_spares(spares);
    replace((PyObject **)place, type);
    if (has_spares && *place == (PyTypeObject *)type) spares->type = (PyTypeObject *)type;
    return true;
}

static PyObject *use_version(PyObject *module, PyObject *type)
{
    State *state = state_of(module);
    if (!use_class(type, state->version, &state->version_class, &state->spare_versions)) return NULL;
    Py_RETURN_NONE;
}

static PyObject *use_tag(PyObject *module, PyObject *type)
{
    State *state = state_of(module);
    if (!is_class_of(type, state->tag)) return NULL;
    replace((PyObject **)&state->tag_class, type);
    /* those that are kept are of another class */
    clear_tags(state);
    Py_RETURN_NONE;
}

static PyObject *use_specifier(PyObject *module, PyObject *type)
{
    State *state = state_of(module);
    if (!use_class(type, state->specifier, &state->specifier_class, &state->spare_specifiers)) return NULL;
    Py_RETURN_NONE;
}

static PyObject *use_set(PyObject *module, PyObject *type)
{
    State *state = state_of(module);
    if (!is_class_of(type, state->set)) return NULL;
    replace((PyObject **)&state->set_class, type);
    Py_RETURN_NONE;
}

/* __instancecheck__(self, instance) of the class of an abstract class: that one knows at once its own two. */
static PyObject *check_instance(PyObject *self, PyObject *instance)
{
    State *state = single_state();
    PyTypeObject *type = Py_TYPE(instance);
    bool is_own = state != NULL && self == state->abstract_class && (type == state->specifier_class || type == state->set_class);
    return is_own ? hold(Py_True) : PyObject_CallMethod(self, "_has_instance", "(O)", instance);
}

static PyMethodDef instance_check = {"__instancecheck__", check_instance, METH_O, NULL};

static PyObject *use_abstract(PyObject *module, PyObject *type)
{
    State *state = state_of(module);
    if (!is_class_of(type, &PyBaseObject_Type)) return NULL;
    PyObject *check = PyDescr_NewMethod(Py_TYPE(type), &instance_check);
    bool is_good = check != NULL && PyObject_SetAttrString((PyObject *)Py_TYPE(type), instance_check.ml_name, check) == 0;
    Py_XDECREF(check);
    if (!is_good) return NULL;
    replace(&state->abstract_class, type);
    Py_RETURN_NONE;
}

static PyObject *use_marker(PyObject *module, PyObject *type)
{
    State *state = state_of(module);
    if (!is_class_of(type, state->marker)) return NULL;
    replace((PyObject **)&state->marker_class, type);
    Py_RETURN_NONE;
}

static PyMethodDef functions[] = {
    CALL("use_refusals", use_refusals, "Two functions that tell the exception of a code: of texts, and of locks and environments."),
    {"use_version", use_version, METH_O, PyDoc_STR("The class of which versions in results are made.")},
    {"use_specifier", use_specifier, METH_O, PyDoc_STR("The class of which specifiers of sets are made.")},
    {"use_set", use_set, METH_O, PyDoc_STR("The class of which sets of specifiers in results are made.")},
    {"use_abstract", use_abstract, METH_O, PyDoc_STR("The abstract class of specifiers and sets, whose class gets what `isinstance` asks.")},
    {"use_marker", use_marker, METH_O, PyDoc_STR("The class of which markers in results are made.")},
    {"use_tag", use_tag, METH_O, PyDoc_STR("The class of which tags in results are made.")},
    {NULL, NULL, 0, NULL},
};

/* ---- the module ---- */

#define EACH(state, word)                                                                                                \
    word(state->version);                                                                                                \
    word(state->tag);                                                                                                    \
    word(state->set);                                                                                                    \
    word(state->specifier);                                                                                              \
    word(state->filter);                                                                                                 \
    word(state->marker);                                                                                                 \
    word(state->environment);                                                                                            \
    word(state->layers);                                                                                                 \
    word(state->session);                                                                                                \
    word(state->run);                                                                                                    \
    word(state->owner);                                                                                                  \
    word(state->field_method);                                                                                           \
    word(state->version_class);                                                                                          \
    word(state->tag_class);                                                                                              \
    word(state->specifier_class);                                                                                        \
    word(state->set_class);                                                                                              \
    word(state->abstract_class);                                                                                         \
    word(state->operators);                                                                                              \
    word(state->letters);                                                                                                \
    word(state->marker_class);                                                                                           \
    word(state->refuse);                                                                                                 \
    word(state->refuse_input);                                                                                           \
    word(state->places);

static int module_traverse(PyObject *module, visitproc visit, void *arg)
{
    State *state = state_of(module);
    if (state == NULL) return 0;
    EACH(state, Py_VISIT)
    for (int number = 0; number < MOST_REFUSALS; number++) Py_VISIT(state->refusals[number]);
    for (int place = 0; place < MOST_TAGS; place++) Py_VISIT(state->tags[place].tag);
    return 0;
}

static int module_clear(PyObject *module)
{
    State *state = state_of(module);
    if (state == NULL) return 0;
    clear_spares(&state->spare_tags);
    clear_spares(&state->spare_versions);
    clear_spares(&state->spare_specifiers);
    EACH(state, Py_CLEAR)
    for (int number = 0; number < MOST_REFUSALS; number++) Py_CLEAR(state->refusals[number]);
    clear_tags(state);
    return 0;
}

static void module_free(void *module)
{
    State *state = state_of(module);
    module_clear(module);
    if (state != NULL) leave_state(state);
}

/* The codes that the Python layer names. */
#define CODE(name) {#name, PYLOCK_##name}

static bool add_codes(PyObject *module)
{
    static const struct {
        const char *name;
        int code;
    } codes[] = {
        CODE(MEMORY), CODE(NOT_UTF8), CODE(EMPTY), CODE(LOCK_REFUSED), CODE(ENVIRONMENT_REFUSED), CODE(EDIT_NO_ENTRY),
    };
    for (size_t index = 0; index < sizeof codes / sizeof codes[0]; index++)
        if (PyModule_AddIntConstant(module, codes[index].name, codes[index].code) < 0) return false;
    return true;
}

/* The state of a new module: NULL with an exception. */
static State *new_state(PyObject *module)
{
    State *state = PyMem_Malloc(sizeof(State));
    if (state == NULL) return (State *)PyErr_NoMemory();
    memset(state, 0, sizeof(State));
    state->users = 1;
    *(State **)PyModule_GetState(module) = state;
    State *none = NULL;
    if (!__atomic_compare_exchange_n(&single, &none, state, false, __ATOMIC_SEQ_CST, __ATOMIC_SEQ_CST))
        __atomic_store_n(&single, &several, __ATOMIC_SEQ_CST);
    return state;
}

static int module_exec(PyObject *module)
{
    State *state = new_state(module);
    if (state == NULL) return -1;
    if (pylock_abi() != ABI) {
        PyErr_Format(PyExc_ImportError, "pylock: the library has the interface %d, and this module wants %d", (int)pylock_abi(), ABI);
        return -1;
    }
    if (!add_versions(module, state) || !add_tags(module, state) || !add_names(module, state)) return -1;
    if (!add_kept(module, state) || !add_specifiers(module, state) || !add_sets(module, state)) return -1;
    if (!add_filters(module, state) || !add_layers(module, state) || !add_markers(module, state)) return -1;
    if (!add_locks(module, state) || !add_tables(module) || !add_fields(module, state)) return -1;
    return add_codes(module) ? PyModule_AddFunctions(module, functions) : -1;
}

/* Python 3.13 and later are told that interpreters with a lock of their own each may have the module: all that is kept is in
 * its state, and the library keeps nothing between calls. In 3.12 such interpreters have been seen to wait for ever, so it
 * isn't told, and refuses the import in them. Pythons before that refuse a module with a slot that they don't know, and
 * their headers have neither its number nor its value. */
enum { SLOT_OF_INTERPRETERS = 3 };
#define EACH_WITH_ITS_LOCK ((void *)2)

static PyModuleDef_Slot slots_before[] = {
    {Py_mod_exec, module_exec},
    {0, NULL},
};

static PyModuleDef_Slot slots[] = {
    {Py_mod_exec, module_exec},
    {SLOT_OF_INTERPRETERS, EACH_WITH_ITS_LOCK},
    {0, NULL},
};

#define DEFINITION(its_slots)                                                                                            \
    {                                                                                                                    \
        PyModuleDef_HEAD_INIT, .m_name = "pylock._native", .m_doc = PyDoc_STR("The library of pylock, linked in."),      \
        .m_size = sizeof(State *), .m_slots = its_slots, .m_traverse = module_traverse, .m_clear = module_clear,         \
        .m_free = module_free,                                                                                           \
    }

static PyModuleDef definition_before = DEFINITION(slots_before), definition = DEFINITION(slots);

bool is_this_module(PyObject *object)
{
    if (!PyModule_Check(object)) return false;
    PyModuleDef *its_definition = PyModule_GetDef(object);
    return its_definition == &definition || its_definition == &definition_before;
}

/* Whether the Python that runs is 3.13 or later: its text begins with its number. */
static bool has_good_interpreters(void)
{
    const char *text = Py_GetVersion();
    if (strncmp(text, "3.", 2) != 0) return text[0] > '3';
    return strtol(text + 2, NULL, 10) >= 13;
}

__attribute__((visibility("default"))) PyMODINIT_FUNC PyInit__native(void)
{
    return PyModuleDef_Init(has_good_interpreters() ? &definition : &definition_before);
}
