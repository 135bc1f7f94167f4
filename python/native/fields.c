/* Methods of the frozen dataclasses of the Python layer (_records).
 *
 * `__init__` does what a function in Python does, which gives each field its argument: it is that function for whoever looks at
 * it, and hands over to it what is out of the common, as arguments that are missing. `__copy__` and `__deepcopy__` are there for
 * the class itself alone: what is made from it may have more, and is copied by what a pickle has of it, as always. */
#include "native.h"

enum { MOST_FIELDS = 16 };

typedef struct FieldMethod FieldMethod;

/* What a method gives, of an object of its class: NULL without an exception where this is out of the common. */
typedef PyObject *(*FieldCall)(FieldMethod *method, PyObject *self, PyObject *arguments, PyObject *named);

struct FieldMethod {
    PyObject_HEAD
    State *state;
    /* the class, the names of its fields, the function or None, and the default of each field, or NULL */
    PyObject *kind, *fields, *function, *defaults[MOST_FIELDS];
    Py_ssize_t count;
    FieldCall call;
    /* how it is bound to an object, of a method without a function */
    PyMethodDef *bound;
};

static PyObject *field_name(const FieldMethod *method, Py_ssize_t place)
{
    return PyTuple_GetItem(method->fields, place);
}

/* ---- making ---- */

/* The values of all fields, which are held: what was given by their names, else their defaults. Their number, where each field
 * has one and nothing else was given. */
static Py_ssize_t take_fields(const FieldMethod *method, PyObject *named, PyObject **values)
{
    Py_ssize_t given = 0, taken = 0;
    while (taken < method->count) {
        PyObject *value = PyDict_GetItemWithError(named, field_name(method, taken));
        if (value != NULL) given++;
        else if (!PyErr_Occurred()) value = method->defaults[taken];
        if (value == NULL) break;
        values[taken++] = hold(value);
    }
    if (taken == method->count && given == PyDict_Size(named)) return taken;
    while (taken > 0) let_go(values[--taken]);
    return 0;
}

/* __init__(self, *, ..) */
static PyObject *call_init(FieldMethod *method, PyObject *self, PyObject *arguments, PyObject *named)
{
    PyObject *values[MOST_FIELDS];
    Py_ssize_t count = named == NULL || PyTuple_Size(arguments) != 1 ? 0 : take_fields(method, named, values);
    if (count == 0) return NULL;
    bool is_good = true;
    for (Py_ssize_t place = 0; place < count; place++) {
        is_good = is_good && PyObject_GenericSetAttr(self, field_name(method, place), values[place]) == 0;
        let_go(values[place]);
    }
    if (!is_good) return NULL;
    Py_RETURN_NONE;
}

/* ---- copies ---- */

/* A copy of a value as `copy.deepcopy` makes it. */
static PyObject *deep_value(PyObject *value, PyObject *memo)
{
    if (value == Py_None || PyUnicode_CheckExact(value) || PyBool_Check(value) || PyLong_CheckExact(value)) {
        Py_INCREF(value);
        return value;
    }
    PyObject *copy = PyImport_ImportModule("copy"), *made = NULL;
    if (copy != NULL) made = PyObject_CallMethod(copy, "deepcopy", "OO", value, memo);
    Py_XDECREF(copy);
    return made;
}

/* Whether the copy has what the dict of attributes has: copies of that with a memo. */
static bool fill(PyObject *copy, PyObject *dict, PyObject *memo)
{
    Walk walk = walk_over(dict);
    bool is_good = true;
    while (is_good && walk_on(&walk)) {
        PyObject *value = memo == NULL ? hold(walk.member) : deep_value(walk.member, memo);
        is_good = value != NULL && PyObject_GenericSetAttr(copy, walk.key, value) == 0;
        Py_XDECREF(value);
    }
    end_walk(&walk);
    return is_good && !PyErr_Occurred();
}

/* Tells the memo of the copy before anything in it is copied, which may have the object in it. */
static bool remember(PyObject *memo, PyObject *self, PyObject *copy)
{
    PyObject *key = PyLong_FromVoidPtr(self);
    bool is_good = key != NULL && PyObject_SetItem(memo, key, copy) == 0;
    Py_XDECREF(key);
    return is_good;
}

static PyObject *copy_of(PyObject *self, PyObject *memo)
{
    PyObject *copy = new_of((PyObject *)Py_TYPE(self)), *dict = copy == NULL ? NULL : PyObject_GetAttrString(self, "__dict__");
    bool is_good = dict != NULL && PyDict_CheckExact(dict);
    if (!is_good && !PyErr_Occurred()) PyErr_SetString(PyExc_TypeError, "expected an object with attributes in a dict");
    if (!is_good || (memo != NULL && !remember(memo, self, copy)) || !fill(copy, dict, memo)) Py_CLEAR(copy);
    Py_XDECREF(dict);
    return copy;
}

static PyObject *bound_copy(PyObject *self, PyObject *nothing)
{
    (void)nothing;
    return copy_of(self, NULL);
}

static PyObject *bound_deepcopy(PyObject *self, PyObject *memo)
{
    return copy_of(self, memo);
}

static PyMethodDef copy_bound = {"__copy__", bound_copy, METH_NOARGS, NULL};
static PyMethodDef deepcopy_bound = {"__deepcopy__", bound_deepcopy, METH_O, NULL};

/* __copy__(self), and __deepcopy__(self, memo): of an object of the class itself. */
static PyObject *call_copy(FieldMethod *method, PyObject *self, PyObject *arguments, PyObject *named)
{
    Py_ssize_t count = method->bound == &copy_bound ? 1 : 2;
    if (named == NULL && PyTuple_Size(arguments) == count && (PyObject *)Py_TYPE(self) == method->kind)
        return copy_of(self, count == 1 ? NULL : PyTuple_GetItem(arguments, 1));
    return NULL;
}

/* ---- the type ---- */

static const struct {
    const char *name;
    FieldCall call;
    PyMethodDef *bound;
} calls[] = {
    {"__init__", call_init, NULL},
    {"__copy__", call_copy, &copy_bound},
    {"__deepcopy__", call_copy, &deepcopy_bound},
};

static PyObject *method_call(PyObject *object, PyObject *arguments, PyObject *named)
{
    FieldMethod *method = (FieldMethod *)object;
    PyObject *self = PyTuple_Size(arguments) > 0 ? PyTuple_GetItem(arguments, 0) : NULL, *done = NULL;
    /* no arguments by their names may come as an empty dict */
    PyObject *its_named = named != NULL && PyDict_Size(named) == 0 ? NULL : named;
    if (self != NULL && is_of(self, (PyTypeObject *)method->kind)) done = method->call(method, self, arguments, its_named);
    if (done != NULL || PyErr_Occurred()) return done;
    if (method->bound == NULL) return PyObject_Call(method->function, arguments, named);
    return PyErr_Format(PyExc_TypeError, "%s: expected an object of %R", method->bound->ml_name, method->kind);
}

/* The method of an object or a class: the function's, for whoever looks at it. */
static PyObject *method_get(PyObject *object, PyObject *self, PyObject *owner)
{
    FieldMethod *method = (FieldMethod *)object;
    PyObject *its_self = self == NULL ? Py_None : self, *its_owner = owner == NULL ? (PyObject *)Py_TYPE(its_self) : owner;
    if (method->bound == NULL) return PyObject_CallMethod(method->function, "__get__", "OO", its_self, its_owner);
    if (its_owner != method->kind)
        return PyErr_Format(PyExc_AttributeError, "%R has no attribute '%s'", its_owner, method->bound->ml_name);
    if (self != NULL) return PyCFunction_New(method->bound, self);
    Py_INCREF(object);
    return object;
}

/* The function, for what unwraps a method. */
static PyObject *method_wrapped(PyObject *object, void *nothing)
{
    (void)nothing;
    PyObject *function = ((FieldMethod *)object)->function;
    Py_INCREF(function);
    return function;
}

static int method_traverse(PyObject *object, visitproc visit, void *arg)
{
    FieldMethod *method = (FieldMethod *)object;
    Py_VISIT(method->kind);
    Py_VISIT(method->fields);
    Py_VISIT(method->function);
    for (Py_ssize_t place = 0; place < MOST_FIELDS; place++) Py_VISIT(method->defaults[place]);
    return visit_type_in(object, visit, arg, method_traverse);
}

static void method_dealloc(PyObject *object)
{
    FieldMethod *method = (FieldMethod *)object;
    PyObject_GC_UnTrack(object);
    Py_CLEAR(method->kind);
    Py_CLEAR(method->fields);
    Py_CLEAR(method->function);
    for (Py_ssize_t place = 0; place < MOST_FIELDS; place++) Py_CLEAR(method->defaults[place]);
    free_object(object);
}

static PyGetSetDef method_attributes[] = {
    {"__wrapped__", method_wrapped, NULL, PyDoc_STR("The function in Python."), NULL},
    {NULL, NULL, NULL, NULL, NULL},
};

static PyType_Slot method_slots[] = {
    {Py_tp_doc, (void *)PyDoc_STR("A method of a frozen dataclass.")},
    {Py_tp_new, no_new},
    {Py_tp_call, method_call},
    {Py_tp_descr_get, method_get},
    {Py_tp_getset, method_attributes},
    {Py_tp_dealloc, method_dealloc},
    {Py_tp_traverse, method_traverse},
    {0, NULL},
};

static PyType_Spec method_spec = {
    .name = "pylock._native.FieldMethod",
    .basicsize = sizeof(FieldMethod),
    .flags = Py_TPFLAGS_DEFAULT | Py_TPFLAGS_HAVE_GC | Py_TPFLAGS_METHOD_DESCRIPTOR | NATIVE_FIXED,
    .slots = method_slots,
};

/* Gives the method the defaults of fields, by their names. */
static bool take_defaults(FieldMethod *method, PyObject *defaults)
{
    for (Py_ssize_t place = 0; place < method->count; place++) {
        method->defaults[place] = hold(PyDict_GetItemWithError(defaults, field_name(method, place)));
        if (method->defaults[place] == NULL && PyErr_Occurred()) return false;
    }
    return true;
}

/* field_method(name, kind, fields, function, defaults) */
static PyObject *field_method(PyObject *module, PyObject *const *arguments, Py_ssize_t count)
{
    State *state = state_of(module);
    if (!check_count("field_method", count, 5)) return NULL;
    size_t row = 0, rows = PyUnicode_Check(arguments[0]) ? sizeof calls / sizeof *calls : 0;
    while (row < rows && PyUnicode_CompareWithASCIIString(arguments[0], calls[row].name) != 0) row++;
    bool is_good = row < rows && PyType_Check(arguments[1]) && PyTuple_Check(arguments[2]) && PyDict_Check(arguments[4]);
    if (!is_good || PyTuple_Size(arguments[2]) > MOST_FIELDS) {
        PyErr_SetString(PyExc_TypeError, "field_method: expected a name, a class, its fields, a function and defaults");
        return NULL;
    }
    FieldMethod *method = (FieldMethod *)new_object(state, state->field_method);
    if (method == NULL) return NULL;
    method->call = calls[row].call;
    method->bound = calls[row].bound;
    method->kind = hold(arguments[1]);
    method->fields = hold(arguments[2]);
    method->function = hold(arguments[3]);
    method->count = PyTuple_Size(method->fields);
    if (!take_defaults(method, arguments[4])) Py_CLEAR(method);
    return (PyObject *)method;
}

static PyMethodDef field_functions[] = {
    CALL("field_method", field_method, "A method of a frozen dataclass."),
    {NULL, NULL, 0, NULL},
};

bool add_fields(PyObject *module, State *state)
{
    return add_type(module, "FieldMethod", &state->field_method, &method_spec) && PyModule_AddFunctions(module, field_functions) == 0;
}
