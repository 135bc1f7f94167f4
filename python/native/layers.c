/* Variables that mappings are laid over for markers: one environment, which is given what a mapping has otherwise than the
 * one before it. So a mapping that is new costs a call for each variable that differs, and no environment of its own. */
#include "native.h"

enum { VARIABLES = 11, EXTRA = VARIABLES, PLACES };

static const char *const words[PLACES] = {
    "os_name", "sys_platform", "platform_machine", "platform_python_implementation", "platform_release",
    "platform_system", "platform_version", "python_version", "python_full_version", "implementation_name",
    "implementation_version", "extra",
};

typedef struct {
    PyObject_HEAD
    State *state;
    /* empty where a call on it was refused: it is made anew then */
    pylock_environment slot;
    /* exact texts, or NULL where a variable is unset: what lies under all mappings, and what the slot has */
    PyObject *under[VARIABLES];
    PyObject *held[VARIABLES];
} Layers;

/* The place of a name, or PLACES where it is none of a variable or `extra`; -1 with an exception. */
static long place_of(const State *state, PyObject *name)
{
    /* NULL where the module was taken apart */
    PyObject *number = state->places == NULL ? NULL : PyDict_GetItemWithError(state->places, name);
    if (number != NULL) return PyLong_AsLong(number);
    return PyErr_Occurred() ? -1 : PLACES;
}

static bool are_same(PyObject *left, PyObject *right)
{
    return left == right || (left != NULL && right != NULL && PyUnicode_Compare(left, right) == 0);
}

static void give_up(Layers *layers)
{
    pylock_environment_free(&layers->slot);
    for (int place = 0; place < VARIABLES; place++) Py_CLEAR(layers->held[place]);
}

/* Gives the slot one variable, or takes it away. */
static int32_t give(Layers *layers, int place, PyObject *text)
{
    Text view;
    const uint8_t *word = (const uint8_t *)words[place];
    size_t length = strlen(words[place]);
    int32_t code = PYLOCK_MEMORY;
    if (text == NULL) {
        code = pylock_environment_unset(&layers->slot, word, length);
    } else if (text_of(text, &view)) {
        code = pylock_environment_set(&layers->slot, word, length, view.bytes, view.length);
        text_done(&view);
    }
    if (code != PYLOCK_OK) return code;
    PyObject *before = layers->held[place];
    layers->held[place] = hold(text);
    Py_XDECREF(before);
    return code;
}

/* Makes the slot have these texts; false with an exception. */
static bool hold_all(Layers *layers, PyObject *const *wanted)
{
    int32_t code = layers->slot.full ? PYLOCK_OK : pylock_environment_new(&layers->slot);
    PyObject *text = NULL;
    for (int place = 0; place < VARIABLES && code == PYLOCK_OK; place++) {
        text = wanted[place];
        if (!are_same(text, layers->held[place])) code = give(layers, place, text);
    }
    if (code == PYLOCK_OK) return true;
    give_up(layers);
    if (!PyErr_Occurred()) raise_refusal(layers->state, code, text == NULL ? Py_None : text, "variable");
    return false;
}

/* Puts what the dict has over the texts. 0 where it has more than variables that are exact texts, -1 with an exception. */
static int lay_over(const State *state, PyObject *mapping, PyObject **wanted, PyObject **extra)
{
    PyObject *name, *value;
    Py_ssize_t at = 0;
    if (!PyDict_CheckExact(mapping)) return 0;
    while (PyDict_Next(mapping, &at, &name, &value)) {
        long place = PyUnicode_CheckExact(name) ? place_of(state, name) : PLACES;
        if (place < 0) return -1;
        if (place == EXTRA)
            *extra = value;
        else if (place == PLACES || !PyUnicode_CheckExact(value))
            return 0;
        else
            wanted[place] = value;
    }
    return 1;
}

pylock_environment *layers_with(State *state, PyObject *object, PyObject *mapping, PyObject **extra, bool *has_extra)
{
    PyObject *wanted[VARIABLES], *own = NULL;
    Layers *layers = (Layers *)object;
    if (!is_of(object, state->layers)) {
        PyErr_SetString(PyExc_TypeError, "expected layers");
        return NULL;
    }
    memcpy(wanted, layers->under, sizeof wanted);
    int laid = mapping == Py_None ? 1 : lay_over(state, mapping, wanted, &own);
    if (laid <= 0) return NULL;
    if (own != NULL && *extra == Py_None) {
        *extra = own;
        *has_extra = true;
    }
    /* what is refused may let the collector run, and so others change the mapping */
    hold(*extra);
    for (int place = 0; place < VARIABLES; place++) hold(wanted[place]);
    bool is_good = hold_all(layers, wanted);
    for (int place = 0; place < VARIABLES; place++) let_go(wanted[place]);
    if (!is_good) let_go(*extra);
    return is_good ? &layers->slot : NULL;
}

/* ---- making ---- */

static PyObject *layers_new(PyTypeObject *type, PyObject *arguments, PyObject *named)
{
    PyObject *taken[MOST_TAKEN], *extra = NULL;
    State *state = state_of_type(type);
    static char *words_of_call[] = {"variables", NULL};
    if (state == NULL || !take_arguments(arguments, named, "O:Layers", words_of_call, taken)) return NULL;
    Layers *layers = (Layers *)new_object(state, type);
    if (layers != NULL) {
        int laid = lay_over(state, taken[0], layers->under, &extra);
        for (int place = 0; place < VARIABLES; place++) hold(layers->under[place]);
        if (laid == 0) PyErr_SetString(PyExc_TypeError, "expected a dict of variables");
        if (laid <= 0) Py_CLEAR(layers);
    }
    let_arguments_go(taken);
    return (PyObject *)layers;
}

static void layers_dealloc(PyObject *self)
{
    Layers *layers = (Layers *)self;
    PyObject_GC_UnTrack(self);
    give_up(layers);
    for (int place = 0; place < VARIABLES; place++) Py_CLEAR(layers->under[place]);
    free_object(self);
}

static PyType_Slot layers_slots[] = {
    {Py_tp_doc, (void *)PyDoc_STR("Variables that mappings are laid over.")},
    {Py_tp_new, layers_new},
    {Py_tp_dealloc, layers_dealloc},
    {Py_tp_traverse, visit_type},
    {0, NULL},
};

static PyType_Spec layers_spec = {
    .name = "pylock._native.Layers",
    .basicsize = sizeof(Layers),
    .flags = Py_TPFLAGS_DEFAULT | Py_TPFLAGS_HAVE_GC | NATIVE_FIXED,
    .slots = layers_slots,
};

static PyObject *made_places(void)
{
    PyObject *places = PyDict_New();
    for (int place = 0; places != NULL && place < PLACES; place++) {
        PyObject *number = PyLong_FromLong(place);
        if (number == NULL || PyDict_SetItemString(places, words[place], number) < 0) Py_CLEAR(places);
        Py_XDECREF(number);
    }
    return places;
}

bool add_layers(PyObject *module, State *state)
{
    return (state->places = made_places()) != NULL && add_type(module, "Layers", &state->layers, &layers_spec);
}
