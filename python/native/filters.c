/* The items of an iterable whose versions a specifier or a set admits. */
#include "specifiers.h"

/* What becomes of pre-releases. */
enum { ALL, FINALS, FINALS_OR_ALL };

typedef struct {
    PyObject_HEAD
    State *state;
    Judge *judge;
    PyObject *items, *key;
    /* of FINALS_OR_ALL, which becomes one of the others then: a list of what came up to the first final release, each behind
     * whether it is a pre-release. And how many of its members were given */
    PyObject *waiting;
    Py_ssize_t given;
    unsigned char kind;
} Filter;

/* ---- one item ---- */

/* The version of an item: a new reference. */
static PyObject *version_of(const Filter *filter, PyObject *item)
{
    return filter->key == NULL ? hold(item) : PyObject_CallFunctionObjArgs(filter->key, item, NULL);
}

/* Whether the item is let through, and whether it is a pre-release where that is asked, a Told. -1 with an exception. */
static int look_at(const Filter *filter, PyObject *item, int *early)
{
    PyObject *version = version_of(filter, item);
    int told = version == NULL ? -1 : judge_lets(filter->judge, version);
    if (told > 0 && filter->kind != ALL) {
        *early = early_item(filter->state, version);
        if (*early < 0) told = -1;
    }
    Py_XDECREF(version);
    return told;
}

/* The next item that is let through: NULL at the end, and with an exception. */
static PyObject *next_let(const Filter *filter, int *early)
{
    /* what an item runs may have come to the end */
    PyObject *items = hold(filter->items), *item = NULL;
    int told = 0;
    while (items != NULL && told == 0 && (item = PyIter_Next(items)) != NULL) {
        told = look_at(filter, item, early);
        if (told <= 0) Py_CLEAR(item);
    }
    let_go(items);
    return item;
}

/* The next of these that is no pre-release. */
static PyObject *next_final(const Filter *filter)
{
    PyObject *item;
    int early = NO;
    while ((item = next_let(filter, &early)) != NULL && early == YES) Py_DECREF(item);
    return item;
}

/* ---- final releases, or all where there is none ---- */

/* Takes all up to the first final release, and says what becomes of it: false with an exception. */
static bool wait_for_final(Filter *filter)
{
    PyObject *waiting = PyList_New(0), *item = NULL;
    int early = YES;
    bool is_good = waiting != NULL;
    while (is_good && early != NO && (item = next_let(filter, &early)) != NULL) {
        PyObject *pair = PyTuple_Pack(2, early == YES ? Py_True : Py_False, item);
        is_good = pair != NULL && PyList_Append(waiting, pair) == 0;
        Py_XDECREF(pair);
        Py_DECREF(item);
    }
    if (!is_good || PyErr_Occurred()) {
        Py_XDECREF(waiting);
        return false;
    }
    PyObject *before = filter->waiting;
    filter->waiting = waiting;
    filter->given = 0;
    filter->kind = item == NULL ? ALL : FINALS;
    Py_XDECREF(before);
    return true;
}

/* The next of those that waited, without pre-releases where there is a final release: NULL at their end. */
static PyObject *next_waiting(Filter *filter)
{
    while (filter->waiting != NULL && filter->given < PyList_Size(filter->waiting)) {
        PyObject *pair = PyList_GetItem(filter->waiting, filter->given++);
        if (filter->kind == ALL || PyTuple_GetItem(pair, 0) == Py_False) return hold(PyTuple_GetItem(pair, 1));
    }
    Py_CLEAR(filter->waiting);
    return NULL;
}

static PyObject *next_item(Filter *filter)
{
    int early;
    if (filter->kind == FINALS_OR_ALL && !wait_for_final(filter)) return NULL;
    PyObject *item = next_waiting(filter);
    if (item != NULL) return item;
    return filter->kind == ALL ? next_let(filter, &early) : next_final(filter);
}

static PyObject *filter_next(PyObject *self)
{
    Filter *filter = (Filter *)self;
    if (filter->items == NULL) return NULL;
    PyObject *item = next_item(filter);
    /* behind its end, or what was raised, it has nothing more */
    if (item == NULL) Py_CLEAR(filter->items);
    return item;
}

/* ---- making and ending ---- */

/* The kind for what was said of pre-releases: -1 with an exception. */
static int kind_of(PyObject *prereleases)
{
    if (prereleases == Py_None) return FINALS_OR_ALL;
    int truth = PyObject_IsTrue(prereleases);
    return truth < 0 ? -1 : truth ? ALL : FINALS;
}

/* The items with what judges them; of an empty set that asks for all the items are all. */
static PyObject *made_filter(Judge *judge, PyObject *iterable, PyObject *prereleases, PyObject *key)
{
    int kind = kind_of(prereleases);
    PyObject *items = kind < 0 ? NULL : PyObject_GetIter(iterable);
    if (items == NULL || (kind == ALL && judge_lets_all(judge))) return items;
    Filter *filter = (Filter *)new_object(judge->state, judge->state->filter);
    if (filter == NULL) {
        Py_DECREF(items);
        return NULL;
    }
    filter->judge = (Judge *)hold((PyObject *)judge);
    filter->items = items;
    filter->key = key == Py_None ? NULL : hold(key);
    filter->kind = (unsigned char)kind;
    return (PyObject *)filter;
}

PyObject *judge_filter(PyObject *self, PyObject *const *arguments, Py_ssize_t count, PyObject *names)
{
    static const char *const words[] = {"iterable", "prereleases", "key"};
    PyObject *places[PLACES_OF_CALL] = {NULL, Py_None, Py_None};
    if (!place_arguments("filter", words, arguments, count, names, places)) return NULL;
    PyObject *iterable = hold(places[0]), *key = hold(places[2]);
    PyObject *prereleases = places[1] == Py_None ? get_asks(self, NULL) : hold(places[1]);
    PyObject *filter = prereleases == NULL ? NULL : made_filter((Judge *)self, iterable, prereleases, key);
    Py_XDECREF(prereleases);
    let_go(key);
    let_go(iterable);
    return filter;
}

static int filter_traverse(PyObject *self, visitproc visit, void *arg)
{
    Filter *filter = (Filter *)self;
    Py_VISIT(filter->judge);
    Py_VISIT(filter->items);
    Py_VISIT(filter->key);
    Py_VISIT(filter->waiting);
    return visit_type_in(self, visit, arg, filter_traverse);
}

static int filter_clear(PyObject *self)
{
    Filter *filter = (Filter *)self;
    Py_CLEAR(filter->items);
    Py_CLEAR(filter->key);
    Py_CLEAR(filter->waiting);
    return 0;
}

static void filter_dealloc(PyObject *self)
{
    Filter *filter = (Filter *)self;
    PyObject_GC_UnTrack(self);
    filter_clear(self);
    Py_CLEAR(filter->judge);
    free_object(self);
}

static PyType_Slot filter_slots[] = {
    {Py_tp_doc, (void *)PyDoc_STR("What `filter` of a specifier or a set gives.")},
    {Py_tp_new, no_new},
    {Py_tp_dealloc, filter_dealloc},
    {Py_tp_traverse, filter_traverse},
    {Py_tp_clear, filter_clear},
    {Py_tp_iter, PyObject_SelfIter},
    {Py_tp_iternext, filter_next},
    {0, NULL},
};

static PyType_Spec filter_spec = {
    .name = "pylock._native.Filter",
    .basicsize = sizeof(Filter),
    .flags = Py_TPFLAGS_DEFAULT | Py_TPFLAGS_HAVE_GC | NATIVE_FIXED,
    .slots = filter_slots,
};

bool add_filters(PyObject *module, State *state)
{
    return add_type(module, "Filter", &state->filter, &filter_spec);
}
