/* What the limited API of 3.8 has another way: types don't know their module. */
#include "native.h"

#if NATIVE_IS_MODERN

PyTypeObject *type_of_spec(PyObject *module, PyType_Spec *spec)
{
    return (PyTypeObject *)PyType_FromModuleAndSpec(module, spec, NULL);
}

int visit_type_in(PyObject *self, visitproc visit, void *arg, traverseproc own)
{
    (void)own;
    Py_VISIT(Py_TYPE(self));
    return 0;
}

State *own_state_of(PyTypeObject *type)
{
    /* the module's own type is the last before `object`: nothing in it stands on another of its types */
    for (;;) {
        PyTypeObject *base = PyType_GetSlot(type, Py_tp_base);
        if (base == NULL || base == &PyBaseObject_Type) break;
        type = base;
    }
    State **place = PyType_GetModuleState(type);
    return place == NULL ? NULL : *place;
}

#else

/* The module stands in each of its types under a name that no one else gives. */
static const char MODULE_NAME[] = "_pylock_module";

PyTypeObject *type_of_spec(PyObject *module, PyType_Spec *spec)
{
    PyObject *type = PyType_FromSpec(spec);
    if (type != NULL && PyObject_SetAttrString(type, MODULE_NAME, module) < 0) Py_CLEAR(type);
    return (PyTypeObject *)type;
}

/* Whether the Python that runs is 3.8: asked once, as some make the text of their release anew each time. */
static bool is_first(void)
{
    static int told = -1;
    int is_it = __atomic_load_n(&told, __ATOMIC_RELAXED);
    if (is_it < 0) {
        is_it = strncmp(Py_GetVersion(), "3.8.", 4) == 0;
        __atomic_store_n(&told, is_it, __ATOMIC_RELAXED);
    }
    return is_it != 0;
}

/* An instance counts as a reference to its type. In 3.8 the walk over an object of a class in Python visits the class by
 * itself, and from 3.9 on it leaves that to the walk of the type that the class is made from. */
int visit_type_in(PyObject *self, visitproc visit, void *arg, traverseproc own)
{
    if (!is_first() || PyType_GetSlot(Py_TYPE(self), Py_tp_traverse) == (void *)own) Py_VISIT(Py_TYPE(self));
    return 0;
}

State *own_state_of(PyTypeObject *type)
{
    PyObject *module = PyObject_GetAttrString((PyObject *)type, MODULE_NAME);
    if (module == NULL) return NULL;
    State *state = NULL;
    if (is_this_module(module))
        state = state_of(module);
    else
        PyErr_SetString(PyExc_TypeError, "pylock: the type has lost its module");
    /* the type holds it further */
    Py_DECREF(module);
    return state;
}

#endif
