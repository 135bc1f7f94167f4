/* Environments that are kept. Calls on them are short and keep the interpreter's lock, so of each object one call runs at a
 * time. */
#include "native.h"

typedef struct {
    PyObject_HEAD
    State *state;
    pylock_environment slot;
} Environment;

/* ---- environments ---- */

static void environment_dealloc(PyObject *self)
{
    PyObject_GC_UnTrack(self);
    pylock_environment_free(&((Environment *)self)->slot);
    free_object(self);
}

pylock_environment *environment_of_object(State *state, PyObject *object)
{
    if (is_of(object, state->environment)) return &((Environment *)object)->slot;
    PyErr_SetString(PyExc_TypeError, "expected a kept environment");
    return NULL;
}

static PyObject *environment_read(PyObject *module, PyObject *json)
{
    State *state = state_of(module);
    Text view;
    pylock_text words = {0};
    if (!bytes_of(json, &view)) return NULL;
    /* the bytes can't be changed, and no other thread comes to a slot that no object has yet */
    pylock_environment slot = {0};
    int32_t code;
    Py_BEGIN_ALLOW_THREADS
    code = pylock_environment_read(&slot, view.bytes, view.length, &words);
    Py_END_ALLOW_THREADS
    if (code != PYLOCK_OK) {
        raise_input(state, code, &words, Py_None, json, false);
        return NULL;
    }
    Environment *kept = (Environment *)new_object(state, state->environment);
    if (kept == NULL)
        pylock_environment_free(&slot);
    else
        kept->slot = slot;
    return (PyObject *)kept;
}

/* Gives the environment one variable: false with an exception. */
static bool set_variable(Environment *kept, PyObject *name, PyObject *value)
{
    Text name_text, text;
    if (!text_of(name, &name_text)) return false;
    bool is_text = text_of(value, &text);
    int32_t code = PYLOCK_OK;
    if (is_text) {
        code = pylock_environment_set(&kept->slot, name_text.bytes, name_text.length, text.bytes, text.length);
        text_done(&text);
    }
    text_done(&name_text);
    if (!is_text || code == PYLOCK_OK || code == PYLOCK_EDIT_VARIABLE) return is_text;
    raise_refusal(kept->state, code, value, "variable");
    return false;
}

/* Gives the environment each variable of a dict. Names that are no variables are left out, as in an environment file. */
static bool set_variables(Environment *kept, PyObject *variables)
{
    Walk walk = walk_over(variables);
    bool is_good = true;
    while (is_good && walk_on(&walk)) is_good = set_variable(kept, walk.key, walk.member);
    end_walk(&walk);
    return is_good && !PyErr_Occurred();
}

static PyObject *environment_of(PyObject *module, PyObject *variables)
{
    State *state = state_of(module);
    if (!PyDict_Check(variables)) return PyErr_Format(PyExc_TypeError, "expected a dict");
    Environment *kept = (Environment *)new_object(state, state->environment);
    if (kept == NULL) return NULL;
    int32_t code = pylock_environment_new(&kept->slot);
    if (code != PYLOCK_OK) raise_refusal(state, code, Py_None, "variable");
    if (code != PYLOCK_OK || !set_variables(kept, variables)) Py_CLEAR(kept);
    return (PyObject *)kept;
}

typedef int32_t (*NameCall)(pylock_environment *environment, const uint8_t *name, size_t length);

static PyObject *ask_for(PyObject *self, PyObject *name, NameCall call)
{
    Environment *kept = (Environment *)self;
    Text view;
    if (!text_of(name, &view)) return NULL;
    int32_t code = call(&kept->slot, view.bytes, view.length);
    text_done(&view);
    if (code == PYLOCK_OK) Py_RETURN_NONE;
    raise_refusal(kept->state, code, name, "name");
    return NULL;
}

static PyObject *environment_add_extra(PyObject *self, PyObject *name)
{
    return ask_for(self, name, pylock_environment_add_extra);
}

static PyObject *environment_add_group(PyObject *self, PyObject *name)
{
    return ask_for(self, name, pylock_environment_add_group);
}

static PyMethodDef environment_methods[] = {
    {"add_extra", environment_add_extra, METH_O, PyDoc_STR("Asks for the extra.")},
    {"add_group", environment_add_group, METH_O, PyDoc_STR("Asks for the dependency group.")},
    {NULL, NULL, 0, NULL},
};

static PyType_Slot environment_slots[] = {
    {Py_tp_doc, (void *)PyDoc_STR("What markers are judged in.")},
    {Py_tp_new, no_new},
    {Py_tp_dealloc, environment_dealloc},
    {Py_tp_traverse, visit_type},
    {Py_tp_methods, environment_methods},
    {0, NULL},
};

static PyType_Spec environment_spec = {
    .name = "pylock._native.Environment",
    .basicsize = sizeof(Environment),
    .flags = Py_TPFLAGS_DEFAULT | Py_TPFLAGS_HAVE_GC | NATIVE_FIXED,
    .slots = environment_slots,
};

static PyObject *environment_target(PyObject *module, PyObject *const *arguments, Py_ssize_t count)
{
    State *state = state_of(module);
    Text python, platform;
    pylock_text words = {0};
    if (!check_count("environment_target", count, 2) || !text_of(arguments[0], &python)) return NULL;
    if (!text_of(arguments[1], &platform)) {
        text_done(&python);
        return NULL;
    }
    int32_t code = pylock_environment_target(python.bytes, python.length, platform.bytes, platform.length, &words);
    text_done(&python);
    text_done(&platform);
    if (code == PYLOCK_OK) return str_of_kept(&words);
    raise_refusal(state, code, arguments[code != PYLOCK_TARGET_PYTHON], "target");
    return NULL;
}

static PyMethodDef kept_functions[] = {
    {"environment_read", environment_read, METH_O, PyDoc_STR("The environment of a JSON text, with nothing asked for.")},
    {"environment_of", environment_of, METH_O, PyDoc_STR("The environment of a dict of variables, with nothing asked for.")},
    CALL("environment_target", environment_target, "The JSON text of the environment of a target."),
    {NULL, NULL, 0, NULL},
};

bool add_kept(PyObject *module, State *state)
{
    return add_type(module, "Environment", &state->environment, &environment_spec) &&
        PyModule_AddFunctions(module, kept_functions) == 0;
}
