/* One specifier, and those of a text. */
#include "specifiers.h"

#include <structmember.h>

/* ---- where specifiers stand in a text ---- */

enum { PLACES_OF_SPAN = 4 };

static int32_t find_spans(const Text *text, Spans *spans, size_t room)
{
    size_t places = 0;
    int32_t code = pylock_set_spans(text->bytes, text->length, (size_t *)spans->each, room * PLACES_OF_SPAN, &places);
    spans->count = places / PLACES_OF_SPAN;
    return code;
}

int32_t spans_of(const Text *text, Spans *spans)
{
    spans->each = spans->near;
    int32_t code = find_spans(text, spans, SPANS_NEAR);
    if (code != PYLOCK_ROOM) return code;
    spans->each = PyMem_Malloc(spans->count * sizeof(Span));
    return spans->each == NULL ? PYLOCK_MEMORY : find_spans(text, spans, spans->count);
}

void spans_done(Spans *spans)
{
    if (spans->each != spans->near) PyMem_Free(spans->each);
}

/* ---- operators ---- */

enum { COMPATIBLE, EQUAL, UNEQUAL, LEAST, MOST, BELOW, ABOVE, EXACT, SIGNS };

static const char *const signs[SIGNS] = {"~=", "==", "!=", "<=", ">=", "<", ">", "==="};

static PyObject *made_operators(void)
{
    PyObject *operators = PyTuple_New(SIGNS);
    for (int place = 0; operators != NULL && place < SIGNS; place++) {
        PyObject *operator = PyUnicode_InternFromString(signs[place]);
        if (operator == NULL || PyTuple_SetItem(operators, place, operator) < 0) Py_CLEAR(operators);
    }
    return operators;
}

static int place_of_sign(const Span *span, const Text *view)
{
    const char *sign = (const char *)view->bytes + span->sign;
    size_t length = span->sign_end - span->sign;
    int place = length == strlen(signs[EXACT]) ? EXACT : 0;
    while (place < EXACT && (signs[place][0] != sign[0] || signs[place][1] != (length == 1 ? '\0' : sign[1]))) place++;
    return place;
}

bool is_exact_sign(const Span *span)
{
    return span->sign_end - span->sign == strlen(signs[EXACT]);
}

/* ---- making ---- */

void forget_specifier(PyObject *self)
{
    Specifier *specifier = (Specifier *)self;
    pylock_set slot = specifier->asked.slot;
    PyObject *had[] = {specifier->operator, specifier->version, specifier->normal, specifier->asked.exact};
    memset(&specifier->asked.slot, 0, sizeof slot);
    specifier->operator = specifier->version = specifier->normal = specifier->asked.exact = NULL;
    specifier->asked.hash = -1;
    specifier->judge.early = UNKNOWN;
    pylock_set_free(&slot);
    for (size_t place = 0; place < sizeof had / sizeof *had; place++) Py_XDECREF(had[place]);
}

/* The operand of a span: of a text in ASCII it is cut from the str, which takes less time than its bytes do. */
static PyObject *operand_of(const Span *span, PyObject *text, const Text *view)
{
    bool is_ascii = (size_t)PyUnicode_GetLength(text) == view->length;
    return is_ascii ? PyUnicode_Substring(text, (Py_ssize_t)span->operand, (Py_ssize_t)span->operand_end)
                    : str_of(view->bytes + span->operand, span->operand_end - span->operand);
}

/* Gives a specifier what stands in a span of a text, in place of what it has: false with an exception. Its set is kept from when
 * it is first asked, as that takes longer. */
static bool give_span(Specifier *specifier, const Span *span, PyObject *text, const Text *view)
{
    int place = place_of_sign(span, view);
    /* NULL where the module was taken apart */
    PyObject *operators = specifier->judge.state->operators;
    PyObject *operator = operators == NULL ? PyUnicode_InternFromString(signs[place]) : hold(PyTuple_GetItem(operators, place));
    PyObject *version = operand_of(span, text, view);
    if (operator == NULL || version == NULL) {
        Py_XDECREF(operator);
        Py_XDECREF(version);
        return false;
    }
    /* what else ran meanwhile may have read another */
    while (specifier->operator != NULL) forget_specifier((PyObject *)specifier);
    specifier->operator = operator;
    specifier->version = version;
    specifier->judge.sign = (unsigned)place;
    specifier->judge.has_exact = place == EXACT;
    return true;
}

/* Reads the text, in place of what the specifier has: whole, or not at all. A set of one specifier is one where it has no
 * comma. */
static bool read_specifier(Specifier *specifier, PyObject *text)
{
    Text view;
    Spans spans;
    bool is_good = false;
    if (!text_of(text, &view)) return false;
    int32_t code = spans_of(&view, &spans);
    bool is_one = code == PYLOCK_OK && spans.count == 1 && memchr(view.bytes, ',', view.length) == NULL;
    if (is_one)
        is_good = give_span(specifier, spans.each, text, &view);
    else
        raise_refusal(specifier->judge.state, code == PYLOCK_OK ? PYLOCK_SET_SYNTAX : code, text, "specifier");
    spans_done(&spans);
    text_done(&view);
    return is_good;
}

static Specifier *new_specifier(State *state, PyTypeObject *type)
{
    Specifier *specifier = (Specifier *)new_object_of(state, type, &state->spare_specifiers, sizeof(Specifier));
    if (specifier != NULL) specifier->asked.hash = -1;
    return specifier;
}

static int init_specifier(Specifier *specifier, PyObject *text, PyObject *forced)
{
    if (text == NULL || !read_specifier(specifier, text)) return -1;
    return say_forced(&specifier->judge, forced == NULL ? Py_None : forced) ? 0 : -1;
}

static int specifier_init(PyObject *self, PyObject *arguments, PyObject *named)
{
    static char *words[] = {"spec", "prereleases", NULL};
    PyObject *taken[MOST_TAKEN];
    Specifier *specifier = (Specifier *)self;
    /* the text alone, as mostly: the arguments of the call hold it */
    if (named == NULL && PyTuple_Size(arguments) == 1) return init_specifier(specifier, PyTuple_GetItem(arguments, 0), NULL);
    if (!take_judged(arguments, named, "|OO:Specifier", words, taken)) return -1;
    if (taken[0] == NULL) taken[0] = PyUnicode_FromString("");
    int told = init_specifier(specifier, taken[0], taken[1]);
    let_arguments_go(taken);
    return told;
}

static PyObject *specifier_new(PyTypeObject *type, PyObject *arguments, PyObject *named)
{
    (void)arguments, (void)named;
    State *state = state_of_type(type);
    return state == NULL ? NULL : (PyObject *)new_specifier(state, type);
}

static int specifier_traverse(PyObject *self, visitproc visit, void *arg)
{
    Specifier *specifier = (Specifier *)self;
    Py_VISIT(specifier->asked.forced);
    Py_VISIT(specifier->asked.exact);
    return visit_type_in(self, visit, arg, specifier_traverse);
}

static int specifier_clear(PyObject *self)
{
    Specifier *specifier = (Specifier *)self;
    Py_CLEAR(specifier->asked.forced);
    Py_CLEAR(specifier->asked.exact);
    return 0;
}

/* ---- what is asked of a specifier ---- */

bool take_pair(const Specifier *specifier, Pair *pair)
{
    pair->operator = hold(specifier->operator);
    pair->version = hold(specifier->version);
    if (pair->operator != NULL) return true;
    PyErr_SetString(PyExc_ValueError, "pylock: the specifier has no text yet");
    return false;
}

void let_pair_go(Pair *pair)
{
    let_go(pair->operator);
    let_go(pair->version);
}

bool is_pair_of(const Pair *pair, const Specifier *specifier)
{
    return specifier->version == pair->version && specifier->operator == pair->operator;
}

PyObject *text_of_pair(const Pair *pair)
{
    return PyUnicode_Concat(pair->operator, pair->version);
}

PyObject *specifier_text(PyObject *self)
{
    Pair pair;
    if (!take_pair((Specifier *)self, &pair)) return NULL;
    PyObject *text = text_of_pair(&pair);
    let_pair_go(&pair);
    return text;
}

static PyObject *get_text(PyObject *self, void *closure)
{
    (void)closure;
    return specifier_text(self);
}

static PyObject *get_pair(PyObject *self, void *closure)
{
    Pair pair;
    (void)closure;
    if (!take_pair((Specifier *)self, &pair)) return NULL;
    PyObject *both = PyTuple_Pack(2, pair.operator, pair.version);
    let_pair_go(&pair);
    return both;
}

/* Whether the operand is a prefix, as only == and != have them. */
static bool is_prefix(const Specifier *specifier)
{
    Py_ssize_t length = PyUnicode_GetLength(specifier->version);
    return specifier->judge.sign != EXACT && length > 0 && PyUnicode_ReadChar(specifier->version, length - 1) == '*';
}

/* The operand of the pair in normal form: of === it is as it is, as all of it counts, and so is a prefix. */
static PyObject *normal_of_pair(Specifier *specifier, const Pair *pair)
{
    if (specifier->normal != NULL) return hold(specifier->normal);
    if (specifier->judge.sign == EXACT || is_prefix(specifier)) return hold(pair->version);
    /* of `~=` each number of the release counts */
    PyObject *normal = canonical_version(specifier->judge.state, pair->version, specifier->judge.sign != COMPATIBLE);
    if (normal != NULL && is_pair_of(pair, specifier) && specifier->normal == NULL) specifier->normal = hold(normal);
    return normal;
}

PyObject *specifier_canonical(PyObject *self, PyObject *nothing)
{
    Pair pair;
    Specifier *specifier = (Specifier *)self;
    (void)nothing;
    if (!take_pair(specifier, &pair)) return NULL;
    PyObject *normal = normal_of_pair(specifier, &pair);
    PyObject *canonical = normal == NULL ? NULL : PyTuple_Pack(2, pair.operator, normal);
    Py_XDECREF(normal);
    let_pair_go(&pair);
    return canonical;
}

static Py_hash_t specifier_hash(PyObject *self)
{
    Specifier *specifier = (Specifier *)self;
    if (specifier->asked.hash != -1) return specifier->asked.hash;
    PyObject *version = hold(specifier->version);
    PyObject *canonical = specifier_canonical(self, NULL);
    Py_hash_t hash = canonical == NULL ? -1 : short_hash(canonical);
    if (specifier->version == version) specifier->asked.hash = hash;
    Py_XDECREF(canonical);
    let_go(version);
    return hash;
}

/* Whether the operand is a pre-release, a Told: NONE of an operand that is no version, NO where the operator doesn't say that
 * it is wanted. -1 with an exception. */
static int early_of(Specifier *specifier)
{
    Pair pair;
    if (specifier->judge.early != UNKNOWN) return specifier->judge.early;
    if (!take_pair(specifier, &pair)) return -1;
    int early = specifier->judge.sign == UNEQUAL || is_prefix(specifier) ? NO : early_text(specifier->judge.state, pair.version);
    if (early >= 0 && is_pair_of(&pair, specifier)) specifier->judge.early = (unsigned)early;
    let_pair_go(&pair);
    return early;
}

static PyObject *get_prereleases(PyObject *self, void *closure)
{
    Specifier *specifier = (Specifier *)self;
    (void)closure;
    if (specifier->asked.forced != NULL) return hold(specifier->asked.forced);
    switch (early_of(specifier)) {
    case YES: return hold(Py_True);
    case NO: return hold(Py_False);
    case NONE: return hold(Py_None);
    default: return NULL;
    }
}

/* A class of one's own may say otherwise what `prereleases` is. */
int specifier_asks(PyObject *self)
{
    Specifier *specifier = (Specifier *)self;
    if (Py_TYPE(self) == specifier->judge.state->specifier_class && specifier->asked.forced == NULL) {
        int early = early_of(specifier);
        return early < 0 ? -1 : early == YES;
    }
    PyObject *told = PyObject_GetAttrString(self, "prereleases");
    int asks = told == NULL ? -1 : PyObject_IsTrue(told);
    Py_XDECREF(told);
    return asks;
}

/* What a pickle has: the arguments of the class. One of one's own may take other ones, which the Python layer looks at. */
static PyObject *specifier_reduce(PyObject *self, PyObject *nothing)
{
    Judge *judge = (Judge *)self;
    (void)nothing;
    if (Py_TYPE(self) != judge->state->specifier_class) return PyObject_CallMethod(self, "_reduced", NULL);
    PyObject *text = specifier_text(self), *forced = hold(said_of(judge));
    PyObject *arguments = text == NULL ? NULL : forced == NULL ? PyTuple_Pack(1, text) : PyTuple_Pack(2, text, forced);
    PyObject *reduced = arguments == NULL ? NULL : PyTuple_Pack(2, (PyObject *)Py_TYPE(self), arguments);
    Py_XDECREF(arguments);
    let_go(forced);
    let_go(text);
    return reduced;
}

/* The same, which pickles ask first. */
static PyObject *specifier_reduce_ex(PyObject *self, PyObject *protocol)
{
    bool is_own = Py_TYPE(self) != ((Judge *)self)->state->specifier_class;
    return is_own ? usual_reduce(self, protocol) : specifier_reduce(self, NULL);
}

/* Whether two specifiers say the same: -1 with an exception. */
static int say_the_same(PyObject *left, PyObject *right)
{
    PyObject *one = specifier_canonical(left, NULL), *other = one == NULL ? NULL : specifier_canonical(right, NULL);
    int are_equal = other == NULL ? -1 : PyObject_RichCompareBool(one, other, Py_EQ);
    Py_XDECREF(other);
    Py_XDECREF(one);
    return are_equal;
}

/* With a text and with specifiers of one's own class the Python layer compares, which one of the type itself doesn't have. */
static PyObject *specifier_compare(PyObject *self, PyObject *other, int how)
{
    const State *state = ((Judge *)self)->state;
    PyTypeObject *type = state->specifier_class;
    bool are_own = Py_TYPE(self) == type && Py_TYPE(other) == type;
    if ((how != Py_EQ && how != Py_NE) || (!are_own && Py_TYPE(self) == state->specifier)) return hold(Py_NotImplemented);
    PyObject *told = NULL;
    int are_equal = are_own ? say_the_same(self, other) : -2;
    if (are_equal == -2) told = PyObject_CallMethod(self, "_equals", "(O)", other);
    if (told == Py_NotImplemented) return told;
    if (told != NULL) are_equal = PyObject_IsTrue(told);
    Py_XDECREF(told);
    return are_equal < 0 ? NULL : PyBool_FromLong(are_equal == (how == Py_EQ));
}

/* A copy has what the text says; one of one's own class has what a pickle has. */
static PyObject *specifier_copy(PyObject *self, PyObject *nothing)
{
    Pair pair;
    Judge *judge = (Judge *)self;
    (void)nothing;
    if (Py_TYPE(self) != judge->state->specifier_class) return PyObject_CallMethod(self, "_copied", NULL);
    if (!take_pair((Specifier *)self, &pair)) return NULL;
    /* of the same text as the pair, whatever runs where the copy is made */
    unsigned char sign = judge->sign;
    PyObject *forced = hold(said_of(judge));
    Specifier *copy = new_specifier(judge->state, Py_TYPE(self));
    if (copy == NULL) {
        let_pair_go(&pair);
        let_go(forced);
        return NULL;
    }
    copy->operator = pair.operator;
    copy->version = pair.version;
    copy->judge.sign = sign;
    copy->judge.has_exact = sign == EXACT;
    copy->asked.forced = forced;
    return (PyObject *)copy;
}

static PyMethodDef specifier_methods[] = {
    {"__copy__", specifier_copy, METH_NOARGS, PyDoc_STR("A copy.")},
    {"__reduce__", specifier_reduce, METH_NOARGS, PyDoc_STR("What a pickle has.")},
    {"__reduce_ex__", specifier_reduce_ex, METH_O, PyDoc_STR("The same.")},
    {"admits", judge_admits, METH_O, PyDoc_STR("admits($self, version, /)\n--\n\nWhether the version is admitted by the order of versions alone, a pre-release as any other.")},
    {"_canonical_spec", specifier_canonical, METH_NOARGS, PyDoc_STR("What equal ones have in common.")},
    {"_passes", judge_passes, METH_O, PyDoc_STR("Whether it lets a version through, a pre-release as any other; a text that is no version may be given.")},
    CONTAINS,
    FILTER,
    {NULL, NULL, 0, NULL},
};

static PyGetSetDef specifier_getters[] = {
    {"text", get_text, NULL, PyDoc_STR("The operator and the operand, without white space."), NULL},
    {"_text", get_text, NULL, PyDoc_STR("The same."), NULL},
    {"_spec", get_pair, NULL, PyDoc_STR("Both as a pair."), NULL},
    {"_is_exact", get_is_exact, NULL, PyDoc_STR("Whether it compares texts."), NULL},
    {"_forced", get_forced, set_forced, PyDoc_STR("What was said of pre-releases."), NULL},
    {"prereleases", get_prereleases, set_forced,
     PyDoc_STR("What was said of pre-releases, else whether the operand is one; None of an operand that is no version. It can\n"
               "be assigned; no copy takes part."), NULL},
    {NULL, NULL, NULL, NULL, NULL},
};

static PyMemberDef specifier_members[] = {
    {"operator", T_OBJECT_EX, offsetof(Specifier, operator), READONLY,
     PyDoc_STR("The operator.")},
    {"version", T_OBJECT_EX, offsetof(Specifier, version), READONLY,
     PyDoc_STR("The operand, as it is written.")},
    {"_exact", T_OBJECT, offsetof(Specifier, asked.exact), 0, PyDoc_STR("What compares texts.")},
    {NULL, 0, 0, 0, NULL},
};

static PyType_Slot specifier_slots[] = {
    {Py_tp_doc, (void *)PyDoc_STR("Specifier(spec='', prereleases=None)\n--\n\nA specifier: the base of the class in pylock.specifiers.")},
    {Py_tp_new, specifier_new},
    {Py_tp_init, specifier_init},
    {Py_tp_dealloc, judge_dealloc},
    {Py_tp_traverse, specifier_traverse},
    {Py_tp_clear, specifier_clear},
    {Py_tp_hash, specifier_hash},
    {Py_tp_richcompare, specifier_compare},
    {Py_tp_str, specifier_text},
    {Py_tp_repr, judge_repr},
    {Py_sq_contains, judge_in},
    {Py_tp_methods, specifier_methods},
    {Py_tp_getset, specifier_getters},
    {Py_tp_members, specifier_members},
    {0, NULL},
};

static PyType_Spec specifier_spec = {
    .name = "pylock._native.Specifier",
    .basicsize = sizeof(Specifier),
    .flags = Py_TPFLAGS_DEFAULT | Py_TPFLAGS_BASETYPE | Py_TPFLAGS_HAVE_GC,
    .slots = specifier_slots,
};

/* ---- the specifiers of a text ---- */

static PyObject *specifier_of_span(State *state, const Span *span, PyObject *text, const Text *view)
{
    PyObject *one = (PyObject *)new_specifier(state, state->specifier_class);
    if (one != NULL && !give_span((Specifier *)one, span, text, view)) Py_CLEAR(one);
    return one;
}

PyObject *specifiers_of_text(State *state, PyObject *text)
{
    Text view;
    Spans spans;
    PyObject *items = NULL;
    if (!text_of(text, &view)) return NULL;
    int32_t code = spans_of(&view, &spans);
    if (code == PYLOCK_OK)
        items = PyTuple_New((Py_ssize_t)spans.count);
    else
        raise_refusal(state, code, text, "specifier");
    for (size_t place = 0; items != NULL && place < spans.count; place++) {
        PyObject *item = specifier_of_span(state, &spans.each[place], text, &view);
        if (item == NULL || PyTuple_SetItem(items, (Py_ssize_t)place, item) < 0) Py_CLEAR(items);
    }
    spans_done(&spans);
    text_done(&view);
    return items;
}

static PyObject *specifiers(PyObject *module, PyObject *text)
{
    return specifiers_of_text(state_of(module), text);
}

static PyMethodDef specifier_functions[] = {
    {"specifiers", specifiers, METH_O, PyDoc_STR("The specifiers of a set's text, in its order.")},
    {NULL, NULL, 0, NULL},
};

bool add_specifiers(PyObject *module, State *state)
{
    if ((state->operators = made_operators()) == NULL) return false;
    if (!add_type(module, "Specifier", &state->specifier, &specifier_spec)) return false;
    state->specifier_class = (PyTypeObject *)hold((PyObject *)state->specifier);
    return PyModule_AddFunctions(module, specifier_functions) == 0;
}
