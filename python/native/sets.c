/* Sets of specifiers. */
#include "specifiers.h"

/* ---- parts that sets were joined of ---- */

/* Whether the part is a pair of parts: in the tuple of a set's specifiers there is neither a tuple nor a text. */
static bool is_joined(PyObject *part)
{
    if (part == NULL || !PyTuple_CheckExact(part) || PyTuple_Size(part) != 2) return false;
    PyObject *first = PyTuple_GetItem(part, 0);
    return PyTuple_CheckExact(first) || PyUnicode_CheckExact(first);
}

/* Takes the last one off a list: NULL with an exception. */
static PyObject *take_last(PyObject *list)
{
    Py_ssize_t last = PyList_Size(list) - 1;
    PyObject *taken = hold(PyList_GetItem(list, last));
    if (taken != NULL && PyList_SetSlice(list, last, last + 1, NULL) < 0) Py_CLEAR(taken);
    return taken;
}

/* Puts a part into the list, or its two parts behind those that wait, the first one last. */
static bool put_part(PyObject *part, PyObject *waiting, PyObject *parts)
{
    if (!is_joined(part)) return PyList_Append(parts, part) == 0;
    return PyList_Append(waiting, PyTuple_GetItem(part, 1)) == 0 && PyList_Append(waiting, PyTuple_GetItem(part, 0)) == 0;
}

/* The parts that aren't joined, from the left: a list. Sets may be joined in any depth. */
static PyObject *parts_of(PyObject *whole)
{
    PyObject *waiting = PyList_New(0), *parts = PyList_New(0);
    bool is_good = waiting != NULL && parts != NULL && PyList_Append(waiting, whole) == 0;
    while (is_good && PyList_Size(waiting) > 0) {
        PyObject *part = take_last(waiting);
        is_good = part != NULL && put_part(part, waiting, parts);
        let_go(part);
    }
    Py_XDECREF(waiting);
    if (!is_good) Py_CLEAR(parts);
    return parts;
}

/* What the function makes of each of a sequence: a list. */
static PyObject *list_of_each(State *state, PyObject *sequence, PyObject *(*made)(State *state, PyObject *one))
{
    PyObject *list = PyList_New(0);
    Py_ssize_t count = list == NULL ? 0 : PySequence_Size(sequence);
    if (count < 0) Py_CLEAR(list);
    for (Py_ssize_t place = 0; list != NULL && place < count; place++) {
        PyObject *one = PySequence_GetItem(sequence, place), *each = one == NULL ? NULL : made(state, one);
        if (each == NULL || PyList_Append(list, each) < 0) Py_CLEAR(list);
        Py_XDECREF(each);
        Py_XDECREF(one);
    }
    return list;
}

/* ---- the text ---- */

static PyObject *text_of_item(State *state, PyObject *item)
{
    (void)state;
    return specifier_text(item);
}

/* The texts of a list or tuple with commas between. */
static PyObject *with_commas(PyObject *texts)
{
    PyObject *comma = texts == NULL ? NULL : PyUnicode_FromString(",");
    PyObject *whole = comma == NULL ? NULL : PyUnicode_Join(comma, texts);
    Py_XDECREF(comma);
    return whole;
}

/* The text of a part that isn't joined: its own, or that of the specifiers. */
static PyObject *text_of_part(State *state, PyObject *part)
{
    if (!PyTuple_Check(part)) return hold(part);
    PyObject *texts = list_of_each(state, part, text_of_item);
    PyObject *whole = with_commas(texts);
    Py_XDECREF(texts);
    return whole;
}

static PyObject *text_of_parts(State *state, PyObject *whole)
{
    PyObject *parts = parts_of(whole);
    PyObject *texts = parts == NULL ? NULL : list_of_each(state, parts, text_of_part);
    PyObject *text = with_commas(texts);
    Py_XDECREF(texts);
    Py_XDECREF(parts);
    return text;
}

/* A part of which there is more than one way to tell: held, or NULL with an exception where the set was never read. */
static PyObject *part_of(PyObject *first, PyObject *otherwise)
{
    if (first == NULL && otherwise == NULL) PyErr_SetString(PyExc_ValueError, "pylock: the set has no text yet");
    return hold(first == NULL ? otherwise : first);
}

PyObject *set_text(PyObject *self)
{
    Set *set = (Set *)self;
    if (set->text != NULL && PyUnicode_Check(set->text)) return hold(set->text);
    PyObject *part = part_of(set->text, items_in(set)), *before = hold(set->text);
    PyObject *text = part == NULL ? NULL : text_of_parts(set->judge.state, part);
    /* what else ran meanwhile may have read another text */
    if (text != NULL && set->text == before && (before != NULL || items_in(set) == part)) {
        Py_XDECREF(before);
        set->text = hold(text);
    }
    let_go(before);
    let_go(part);
    return text;
}

/* ---- the specifiers ---- */

static PyObject *items_of_part(State *state, PyObject *part)
{
    return PyTuple_Check(part) ? hold(part) : specifiers_of_text(state, part);
}

static PyObject *items_of_parts(State *state, PyObject *whole)
{
    PyObject *parts = parts_of(whole), *items = NULL, *all = parts == NULL ? NULL : PyList_New(0);
    PyObject *each = all == NULL ? NULL : list_of_each(state, parts, items_of_part);
    bool is_good = each != NULL;
    for (Py_ssize_t place = 0; is_good && place < PyList_Size(each); place++) {
        Py_ssize_t end = PyList_Size(all);
        is_good = PyList_SetSlice(all, end, end, PyList_GetItem(each, place)) == 0;
    }
    if (is_good) items = PyList_AsTuple(all);
    Py_XDECREF(each);
    Py_XDECREF(all);
    Py_XDECREF(parts);
    return items;
}

/* The specifiers, in the order of the text: a tuple. */
static PyObject *set_items(PyObject *self)
{
    Set *set = (Set *)self;
    PyObject *had = items_in(set), *items = NULL;
    if (had != NULL && !is_joined(had)) return hold(had);
    /* the one that there is of no members */
    if (had == NULL && set->text != NULL && set->judge.count == 0) return PyTuple_New(0);
    PyObject *part = part_of(had, set->text), *before = hold(had);
    if (part != NULL && want_asked(&set->judge) != NULL)
        items = is_joined(part) ? items_of_parts(set->judge.state, part) : items_of_part(set->judge.state, part);
    /* as in the text */
    if (items != NULL && items_in(set) == before && (before != NULL || set->text == part)) {
        Py_XDECREF(before);
        set->asked->items = hold(items);
    }
    let_go(before);
    let_go(part);
    return items;
}

/* ---- making ---- */

Asked *make_asked(Set *set)
{
    SpareParts *spares = &set->judge.state->spare_asked;
    SetAsked *asked = spares->count > 0 ? spares->each[--spares->count] : PyMem_Malloc(sizeof(SetAsked));
    if (asked == NULL) return (Asked *)PyErr_NoMemory();
    memset(asked, 0, sizeof(SetAsked));
    asked->asked.hash = -1;
    set->asked = asked;
    return &asked->asked;
}

void free_asked(State *state, SetAsked *asked)
{
    SpareParts *spares = &state->spare_asked;
    if (spares->count < MOST_SPARE)
        spares->each[spares->count++] = asked;
    else
        PyMem_Free(asked);
}

/* Gives it up, but for what was said of pre-releases. */
static void forget_asked(SetAsked *asked)
{
    SetAsked had = *asked;
    memset(asked, 0, sizeof(SetAsked));
    asked->asked.forced = had.asked.forced;
    asked->asked.hash = -1;
    pylock_set_free(&had.asked.slot);
    Py_XDECREF(had.items);
    Py_XDECREF(had.shown);
    Py_XDECREF(had.asked.exact);
}

void forget_set(PyObject *self)
{
    Set *set = (Set *)self;
    PyObject *text = set->text;
    set->text = NULL;
    set->judge.count = 0;
    set->judge.has_exact = false;
    set->judge.unsatisfiable = UNKNOWN;
    if (set->asked != NULL) forget_asked(set->asked);
    Py_XDECREF(text);
}

/* Whether the set has nothing that would be read in its place; what it has is given up. */
static void make_empty(Set *set)
{
    while (set->text != NULL || items_in(set) != NULL) forget_set((PyObject *)set);
}

/* The code of the library on the text of a set, the number of its specifiers, and whether one compares texts. */
static int32_t judge_text(PyObject *text, Py_ssize_t *count, bool *has_exact)
{
    Text view;
    Spans spans;
    if (!text_of(text, &view)) return -1;
    int32_t code = spans_of(&view, &spans);
    *has_exact = false;
    for (size_t place = 0; code == PYLOCK_OK && place < spans.count; place++) *has_exact |= is_exact_sign(&spans.each[place]);
    *count = (Py_ssize_t)spans.count;
    spans_done(&spans);
    text_done(&view);
    return code;
}

/* Gives the set a text that was judged, which it has from here on, in place of what it has. */
static void put_text(Set *set, PyObject *text, Py_ssize_t count, bool has_exact)
{
    make_empty(set);
    set->text = text;
    set->judge.count = (uint64_t)count;
    set->judge.has_exact = has_exact;
}

/* Reads a text, in place of what the set has: whole, or not at all. Its specifiers are made, and its set is kept, when it is
 * asked for them. */
static bool read_text(Set *set, PyObject *text)
{
    Py_ssize_t count;
    bool has_exact;
    int32_t code = judge_text(text, &count, &has_exact);
    if (code > PYLOCK_OK) raise_refusal(set->judge.state, code, text, "specifier");
    PyObject *kept = code == PYLOCK_OK ? exact_text(text) : NULL;
    if (kept != NULL) put_text(set, kept, count, has_exact);
    return kept != NULL;
}

/* What a class of the Python layer, NULL where the module was taken apart, makes of a text. */
static PyObject *made_of_text(PyTypeObject *type, PyObject *text)
{
    if (type == NULL) {
        PyErr_SetString(PyExc_RuntimeError, "pylock: the module was taken apart");
        return NULL;
    }
    /* what runs meanwhile may say that another class is used */
    hold((PyObject *)type);
    PyObject *made = PyObject_CallFunctionObjArgs((PyObject *)type, text, NULL);
    let_go((PyObject *)type);
    return made;
}

/* A specifier as it is, or that of a text. */
static PyObject *item_of(State *state, PyObject *one)
{
    if (is_of(one, state->specifier)) return hold(one);
    if (PyUnicode_Check(one)) return made_of_text(state->specifier_class, one);
    return PyErr_Format(PyExc_TypeError, "expected a str or Specifiers, not %R", (PyObject *)Py_TYPE(one));
}

static PyObject *tuple_of_items(State *state, PyObject *sequence)
{
    PyObject *items = list_of_each(state, sequence, item_of);
    PyObject *tuple = items == NULL ? NULL : PyList_AsTuple(items);
    Py_XDECREF(items);
    return tuple;
}

/* The same of specifiers, or of texts of them. */
static bool take_each(Set *set, PyObject *each)
{
    bool has_exact = false;
    PyObject *items = tuple_of_items(set->judge.state, each);
    if (items == NULL || want_asked(&set->judge) == NULL) {
        Py_XDECREF(items);
        return false;
    }
    Py_ssize_t count = PyTuple_Size(items);
    for (Py_ssize_t place = 0; place < count; place++) has_exact |= ((Judge *)PyTuple_GetItem(items, place))->has_exact;
    put_text(set, NULL, count, has_exact);
    set->asked->items = items;
    return true;
}

/* Whether each of a tuple is the text of one specifier, as far as it can be seen. */
static bool are_texts(PyObject *each)
{
    bool are = PyTuple_Size(each) > 0;
    for (Py_ssize_t place = 0; are && place < PyTuple_Size(each); place++) {
        PyObject *one = PyTuple_GetItem(each, place);
        Py_ssize_t length = PyUnicode_CheckExact(one) ? PyUnicode_GetLength(one) : 0;
        are = length > 0 && PyUnicode_FindChar(one, ',', 0, length, 1) == -1;
    }
    return are;
}

/* Reads the texts of a tuple as one: false, mostly without an exception, where one of them isn't the text of a specifier. */
static bool read_texts(Set *set, PyObject *each)
{
    Py_ssize_t count;
    bool has_exact;
    PyObject *text = with_commas(each);
    int32_t code = text == NULL ? -1 : judge_text(text, &count, &has_exact);
    if (code == PYLOCK_MEMORY) PyErr_NoMemory();
    bool is_good = code == PYLOCK_OK && count == PyTuple_Size(each);
    if (is_good) put_text(set, hold(text), count, has_exact);
    Py_XDECREF(text);
    return is_good;
}

/* Takes specifiers, or texts of them, in place of what the set has; what is wrong in a text is found where it is read alone. */
static bool take_items(Set *set, PyObject *given)
{
    /* a tuple, as Python 3.11 loses what it makes a list of where memory is refused */
    PyObject *each = PySequence_Tuple(given);
    bool is_good = each != NULL && are_texts(each) && read_texts(set, each);
    if (!is_good && each != NULL && !PyErr_Occurred()) is_good = take_each(set, each);
    Py_XDECREF(each);
    return is_good;
}

static int set_init(PyObject *self, PyObject *arguments, PyObject *named)
{
    static char *words[] = {"specifiers", "prereleases", NULL};
    PyObject *taken[MOST_TAKEN];
    Set *set = (Set *)self;
    if (!take_judged(arguments, named, "|OO:SpecifierSet", words, taken)) return -1;
    if (taken[0] == NULL) taken[0] = PyUnicode_FromString("");
    bool says = taken[1] != NULL && taken[1] != Py_None;
    /* the place for what is said comes first, so that the set is made whole or not at all */
    bool is_good = taken[0] != NULL && (!says || want_asked(&set->judge) != NULL);
    is_good = is_good && (PyUnicode_Check(taken[0]) ? read_text(set, taken[0]) : take_items(set, taken[0]));
    is_good = is_good && say_forced(&set->judge, says ? taken[1] : Py_None);
    let_arguments_go(taken);
    return is_good ? 0 : -1;
}

static Set *new_set(State *state, PyTypeObject *type)
{
    Set *set = (Set *)new_object(state, type);
    if (set != NULL) set->judge.is_set = true;
    return set;
}

static PyObject *set_new(PyTypeObject *type, PyObject *arguments, PyObject *named)
{
    (void)arguments, (void)named;
    State *state = state_of_type(type);
    return state == NULL ? NULL : (PyObject *)new_set(state, type);
}

static int set_traverse(PyObject *self, visitproc visit, void *arg)
{
    Set *set = (Set *)self;
    if (set->asked != NULL) {
        Py_VISIT(set->asked->asked.forced);
        Py_VISIT(set->asked->asked.exact);
        Py_VISIT(set->asked->items);
    }
    Py_VISIT(set->text);
    return visit_type_in(self, visit, arg, set_traverse);
}

static int set_clear(PyObject *self)
{
    Set *set = (Set *)self;
    if (set->asked != NULL) {
        Py_CLEAR(set->asked->asked.forced);
        Py_CLEAR(set->asked->asked.exact);
        Py_CLEAR(set->asked->items);
    }
    if (set->text != NULL && PyTuple_Check(set->text)) Py_CLEAR(set->text);
    return 0;
}

/* ---- joining ---- */

/* What is said of pre-releases in both: held, or NULL with an exception. */
static PyObject *joined_forced(const Set *left, const Set *right)
{
    PyObject *one = said_of(&left->judge), *other = said_of(&right->judge);
    if (one == NULL || other == NULL || one == other) return hold(one != NULL ? one : other != NULL ? other : Py_None);
    hold(one);
    hold(other);
    int differ = PyObject_RichCompareBool(one, other, Py_NE);
    if (differ > 0)
        PyErr_SetString(PyExc_ValueError, "Cannot combine SpecifierSets with True and False prerelease overrides.");
    let_go(one);
    if (differ == 0) return other;
    let_go(other);
    return NULL;
}

/* A pair of two parts, which are let go of. */
static PyObject *pair_of(PyObject *left, PyObject *right)
{
    PyObject *pair = left == NULL || right == NULL ? NULL : PyTuple_Pack(2, left, right);
    Py_XDECREF(left);
    Py_XDECREF(right);
    return pair;
}

/* Gives a new set the text of both, and their specifiers, as far as there are more than texts: false with an exception. */
static bool put_both(Set *both, const Set *left, const Set *right)
{
    bool has_items = items_in(left) != NULL || items_in(right) != NULL;
    PyObject *items = NULL;
    if (has_items && want_asked(&both->judge) == NULL) return false;
    PyObject *text = pair_of(part_of(left->text, items_in(left)), part_of(right->text, items_in(right)));
    if (text != NULL && has_items) items = pair_of(part_of(items_in(left), left->text), part_of(items_in(right), right->text));
    if (text == NULL || (has_items && items == NULL)) {
        Py_XDECREF(text);
        return false;
    }
    both->text = text;
    if (has_items) both->asked->items = items;
    uint64_t count = (uint64_t)left->judge.count + right->judge.count;
    both->judge.count = count > MOST_COUNTED ? MOST_COUNTED : count;
    both->judge.has_exact = left->judge.has_exact || right->judge.has_exact;
    return true;
}

/* A set of the specifiers of both, of which nothing is read or made again. */
static PyObject *joined(Set *left, Set *right)
{
    State *state = left->judge.state;
    PyObject *forced = joined_forced(left, right);
    Set *both = forced == NULL ? NULL : new_set(state, state->set_class);
    if (both != NULL && !(put_both(both, left, right) && say_forced(&both->judge, forced))) Py_CLEAR(both);
    Py_XDECREF(forced);
    return (PyObject *)both;
}

static PyObject *not_implemented(void)
{
    return hold(Py_NotImplemented);
}

static PyObject *set_joined(PyObject *self, PyObject *other)
{
    State *state = ((Set *)self)->judge.state;
    if (is_of(other, state->set)) return joined((Set *)self, (Set *)other);
    if (!PyUnicode_Check(other)) return not_implemented();
    PyObject *made = made_of_text(state->set_class, other);
    if (made != NULL && !is_of(made, state->set)) {
        PyErr_SetString(PyExc_TypeError, "expected a set");
        Py_CLEAR(made);
    }
    PyObject *both = made == NULL ? NULL : joined((Set *)self, (Set *)made);
    Py_XDECREF(made);
    return both;
}

/* ---- what is asked of a set ---- */

static PyObject *get_text(PyObject *self, void *closure)
{
    (void)closure;
    return set_text(self);
}

static PyObject *get_normal_text(PyObject *self, void *closure)
{
    Set *set = (Set *)self;
    Result result = {.bytes = NULL};
    PyObject *text = NULL;
    uint8_t *room = result.near;
    (void)closure;
    pylock_set *slot = fill_slot(&set->judge);
    if (slot == NULL) return NULL;
    int32_t code = pylock_set_text(slot, room, RESULT_ROOM, &result.length);
    if (code == PYLOCK_ROOM) {
        room = PyMem_Malloc(result.length);
        code = room == NULL ? PYLOCK_MEMORY : pylock_set_text(slot, room, result.length, &result.length);
    }
    if (code == PYLOCK_OK)
        text = str_of(room, result.length);
    else
        raise_refusal(set->judge.state, code, Py_None, "specifier");
    if (room != result.near) PyMem_Free(room);
    return text;
}

static PyObject *set_items_call(PyObject *self, PyObject *nothing)
{
    (void)nothing;
    return set_items(self);
}

static Py_ssize_t set_length(PyObject *self)
{
    Set *set = (Set *)self;
    PyObject *part = part_of(items_in(set), set->text);
    let_go(part);
    return part == NULL ? -1 : (Py_ssize_t)set->judge.count;
}

static PyObject *set_iter(PyObject *self)
{
    PyObject *items = set_items(self);
    PyObject *iterator = items == NULL ? NULL : PyObject_GetIter(items);
    Py_XDECREF(items);
    return iterator;
}

int set_asks(PyObject *self)
{
    int asks = 0;
    PyObject *items = set_items(self);
    if (items == NULL) return -1;
    for (Py_ssize_t place = 0; asks == 0 && place < PyTuple_Size(items); place++) asks = specifier_asks(PyTuple_GetItem(items, place));
    Py_DECREF(items);
    return asks;
}

/* Whether a specifier was told of pre-releases, of which the text has nothing. */
static PyObject *set_says_more(PyObject *self, PyObject *nothing)
{
    Set *set = (Set *)self;
    bool says = false;
    (void)nothing;
    if (items_in(set) == NULL) return PyBool_FromLong(false);
    PyObject *items = set_items(self);
    if (items == NULL) return NULL;
    for (Py_ssize_t place = 0; place < PyTuple_Size(items); place++)
        says |= said_of((Judge *)PyTuple_GetItem(items, place)) != NULL;
    Py_DECREF(items);
    return PyBool_FromLong(says);
}

/* ---- as a set ---- */

/* Whether an operator stands there twice, so that specifiers may be equal. */
static bool repeats_operator(PyObject *items)
{
    unsigned met = 0;
    for (Py_ssize_t place = 0; place < PyTuple_Size(items); place++) {
        unsigned sign = 1u << ((Judge *)PyTuple_GetItem(items, place))->sign;
        if (met & sign) return true;
        met |= sign;
    }
    return false;
}

static PyObject *text_and_canonical(State *state, PyObject *item)
{
    (void)state;
    return pair_of(specifier_text(item), specifier_canonical(item, NULL));
}

/* The texts of pairs in order, of those whose second one is the same the first alone: a list. */
static PyObject *texts_of_distinct(PyObject *pairs)
{
    PyObject *met = PySet_New(NULL), *texts = met == NULL ? NULL : PyList_New(0);
    for (Py_ssize_t place = 0; texts != NULL && place < PyList_Size(pairs); place++) {
        PyObject *pair = hold(PyList_GetItem(pairs, place)), *canonical = PyTuple_GetItem(pair, 1);
        int is_met = PySet_Contains(met, canonical);
        if (is_met == 0 && PySet_Add(met, canonical) == 0) is_met = PyList_Append(texts, PyTuple_GetItem(pair, 0));
        let_go(pair);
        if (is_met < 0 || PyErr_Occurred()) Py_CLEAR(texts);
    }
    Py_XDECREF(met);
    return texts;
}

/* The texts in order, without those of specifiers that are equal to one before. */
static PyObject *made_shown(State *state, PyObject *items)
{
    bool repeats = repeats_operator(items);
    PyObject *each = list_of_each(state, items, repeats ? text_and_canonical : text_of_item);
    if (each != NULL && PyList_Sort(each) < 0) Py_CLEAR(each);
    PyObject *texts = each == NULL ? NULL : repeats ? texts_of_distinct(each) : hold(each);
    PyObject *shown = with_commas(texts);
    Py_XDECREF(texts);
    Py_XDECREF(each);
    return shown;
}

/* Whether `str` gives the text as it is: that of one specifier, with neither white space nor a comma. */
static bool is_shown(const Set *set)
{
    static const char others[] = " \t\n\v\f\r,";
    Text view;
    if (set->judge.count != 1 || set->text == NULL || !PyUnicode_Check(set->text) || items_in(set) != NULL) return false;
    if (!text_of(set->text, &view)) return false;
    bool is_it = true;
    for (size_t place = 0; is_it && place < view.length; place++) is_it = memchr(others, view.bytes[place], sizeof others - 1) == NULL;
    text_done(&view);
    return is_it;
}

static PyObject *set_str(PyObject *self)
{
    Set *set = (Set *)self;
    if (set->asked != NULL && set->asked->shown != NULL) return hold(set->asked->shown);
    if (judge_lets_all(&set->judge)) return PyUnicode_FromString("");
    if (is_shown(set)) return hold(set->text);
    if (PyErr_Occurred()) return NULL;
    PyObject *items = set_items(self);
    PyObject *shown = items == NULL ? NULL : made_shown(set->judge.state, items);
    /* as in the text */
    if (shown != NULL && items_in(set) == items && set->asked->shown == NULL) set->asked->shown = hold(shown);
    let_go(items);
    return shown;
}

/* Empty sets are equal to no other. */
enum { EMPTY_HASH = 1 };

static Py_hash_t set_hash(PyObject *self)
{
    Set *set = (Set *)self;
    if (set->asked != NULL && set->asked->asked.hash != -1) return set->asked->asked.hash;
    if (judge_lets_all(&set->judge)) return EMPTY_HASH;
    PyObject *items = set_items(self), *distinct = items == NULL ? NULL : PyFrozenSet_New(items);
    Py_hash_t hash = distinct == NULL ? -1 : short_hash(distinct);
    /* as in the text */
    if (items != NULL && items_in(set) == items) set->asked->asked.hash = hash;
    Py_XDECREF(distinct);
    let_go(items);
    return hash;
}

/* Order and repetition don't count. */
static PyObject *distinct_items(PyObject *self)
{
    PyObject *items = set_items(self);
    PyObject *distinct = items == NULL ? NULL : PyFrozenSet_New(items);
    Py_XDECREF(items);
    return distinct;
}

/* Whether both are equal, a Told, as far as it can be seen without their specifiers. */
static int seen_equal(const Set *left, const Set *right)
{
    bool have_text = left->text != NULL && right->text != NULL;
    if ((left->text == NULL && items_in(left) == NULL) || (right->text == NULL && items_in(right) == NULL)) return UNKNOWN;
    if (left == right) return YES;
    if (left->judge.count == 0 || right->judge.count == 0) return left->judge.count == right->judge.count ? YES : NO;
    if (!have_text || items_in(left) != NULL || items_in(right) != NULL) return UNKNOWN;
    if (!PyUnicode_Check(left->text) || !PyUnicode_Check(right->text)) return UNKNOWN;
    return PyUnicode_Compare(left->text, right->text) == 0 ? YES : UNKNOWN;
}

static PyObject *compared(PyObject *left, PyObject *right, int how)
{
    int seen = seen_equal((Set *)left, (Set *)right);
    if (seen != UNKNOWN) return PyBool_FromLong((seen == YES) == (how == Py_EQ));
    PyObject *one = distinct_items(left), *other = one == NULL ? NULL : distinct_items(right);
    PyObject *told = other == NULL ? NULL : PyObject_RichCompare(one, other, how);
    Py_XDECREF(other);
    Py_XDECREF(one);
    return told;
}

static PyObject *set_compare(PyObject *self, PyObject *other, int how)
{
    State *state = ((Set *)self)->judge.state;
    if (how != Py_EQ && how != Py_NE) return not_implemented();
    if (is_of(other, state->set)) return compared(self, other, how);
    if (!PyUnicode_Check(other) && !is_of(other, state->specifier)) return not_implemented();
    PyObject *text = PyObject_Str(other), *made = text == NULL ? NULL : made_of_text(state->set_class, text);
    PyObject *told = made == NULL ? NULL : PyObject_RichCompare(self, made, how);
    Py_XDECREF(made);
    Py_XDECREF(text);
    return told;
}

/* ---- whether there is no version in it ---- */

/* The code of the library, which tells whether a kept version is a pre-release. */
static int32_t read_phase(pylock_text *version, bool *is_early)
{
    Result text;
    size_t length;
    uint8_t none[1];
    pylock_version_kind kind = {.is_prerelease = false};
    int32_t code = result_of_kept(version, &text);
    /* the key has no room, and the kind is told then too */
    if (code == PYLOCK_OK) code = pylock_version_read(text.bytes, text.length, none, 0, &length, &kind);
    result_done(&text);
    *is_early = kind.is_prerelease;
    return code == PYLOCK_ROOM ? PYLOCK_OK : code;
}

/* What the library shows of whether there is no version in the set, a Told: UNKNOWN where it shows nothing, where what was said of
 * pre-releases leaves its version out, and of texts and of a class of one's own, which the Python layer asks. -1 with an exception. */
static int emptiness(Set *set)
{
    State *state = set->judge.state;
    pylock_text witness = {0};
    int32_t answer = PYLOCK_UNDECIDED;
    bool is_early = false;
    if (set->judge.has_exact || Py_TYPE(set) != state->set_class) return UNKNOWN;
    /* from the last look at the slot on nothing runs but the library */
    pylock_set *slot = fill_slot(&set->judge);
    int32_t code = slot == NULL ? -1 : pylock_set_is_unsatisfiable(slot, &answer, &witness);
    PyObject *said = said_of(&set->judge);
    if (code == PYLOCK_OK && answer == PYLOCK_NO && said == Py_False) code = read_phase(&witness, &is_early);
    pylock_text_free(&witness);
    if (code > PYLOCK_OK) raise_refusal(state, code, Py_None, "specifier");
    if (code != PYLOCK_OK) return -1;
    if (answer == PYLOCK_YES) return YES;
    bool shows = answer == PYLOCK_NO && !is_early && (said == NULL || said == Py_True || said == Py_False);
    return shows ? NO : UNKNOWN;
}

/* What is found is kept until something is said of pre-releases. */
static PyObject *set_is_unsatisfiable(PyObject *self, PyObject *nothing)
{
    Set *set = (Set *)self;
    (void)nothing;
    if (set->judge.unsatisfiable != UNKNOWN) return PyBool_FromLong(set->judge.unsatisfiable == YES);
    if (judge_lets_all(&set->judge)) return PyBool_FromLong(false);
    int empty = emptiness(set);
    if (empty < 0) return NULL;
    if (empty != UNKNOWN) {
        set->judge.unsatisfiable = (unsigned)empty & 3;
        return PyBool_FromLong(empty == YES);
    }
    PyObject *items = set_items(self), *forced = hold(said_of(&set->judge));
    PyObject *found = items == NULL ? NULL : PyObject_CallMethod(self, "_has_no_version", "(O)", items);
    int told = found == NULL ? -1 : PyObject_IsTrue(found);
    /* what else ran meanwhile may have read another text, or said more */
    if (told >= 0 && items_in(set) == items && said_of(&set->judge) == forced) set->judge.unsatisfiable = told ? YES : NO;
    Py_XDECREF(found);
    let_go(forced);
    let_go(items);
    return told < 0 ? NULL : PyBool_FromLong(told);
}

/* ---- what is asked of every version ---- */

typedef int32_t (*SetsCall)(pylock_set *first, pylock_set *second, int32_t *answer, pylock_text *witness);

/* Another set of the same text: NULL with an exception. */
static PyObject *twin_of(PyObject *self)
{
    State *state = ((Set *)self)->judge.state;
    PyObject *text = set_text(self), *twin = text == NULL ? NULL : (PyObject *)new_set(state, state->set);
    if (twin != NULL && !read_text((Set *)twin, text)) Py_CLEAR(twin);
    Py_XDECREF(text);
    return twin;
}

/* Fills the slots of two sets: false with an exception. From the last look at them on nothing runs but the library. */
static bool fill_both(Set *first, Set *second, pylock_set **slots)
{
    do {
        slots[0] = fill_slot(&first->judge);
        slots[1] = slots[0] == NULL ? NULL : fill_slot(&second->judge);
        if (slots[1] == NULL) return false;
    } while (!slots[0]->full);
    return true;
}

/* The version of a witness, or None where the answer is another one; NULL with an exception. */
static PyObject *version_shown(State *state, int32_t answer, pylock_text *witness)
{
    if (answer != PYLOCK_NO) return hold(Py_None);
    PyObject *text = str_of_kept(witness), *version = text == NULL ? NULL : version_of_normal(state, text);
    Py_XDECREF(text);
    return version;
}

static PyObject *asked_of_both(PyObject *self, PyObject *other, SetsCall call)
{
    State *state = ((Set *)self)->judge.state;
    pylock_set *slots[2];
    pylock_text witness = {0};
    int32_t answer = PYLOCK_UNDECIDED, code = -1;
    if (!is_of(other, state->set)) return PyErr_Format(PyExc_TypeError, "expected a SpecifierSet, not %R", (PyObject *)Py_TYPE(other));
    /* a set beside itself has a slot of its own */
    PyObject *second = other == self ? twin_of(self) : hold(other);
    if (second != NULL && fill_both((Set *)self, (Set *)second, slots)) code = call(slots[0], slots[1], &answer, &witness);
    Py_XDECREF(second);
    if (code > PYLOCK_OK) raise_refusal(state, code, Py_None, "specifier");
    return code == PYLOCK_OK ? told_answer(answer, version_shown(state, answer, &witness)) : NULL;
}

static PyObject *set_subset(PyObject *self, PyObject *other)
{
    return asked_of_both(self, other, pylock_set_is_subset);
}

static PyObject *set_disjoint(PyObject *self, PyObject *other)
{
    return asked_of_both(self, other, pylock_set_is_disjoint);
}

/* ---- the type ---- */

static PyMethodDef set_methods[] = {
    {"admits", judge_admits, METH_O,
     PyDoc_STR("admits($self, version, /)\n--\n\n"
               "Whether the version is admitted by the order of versions alone, a pre-release as any other.")},
    {"is_unsatisfiable", set_is_unsatisfiable, METH_NOARGS,
     PyDoc_STR("is_unsatisfiable($self, /)\n--\n\nWhether there is no version that it contains.")},
    CONTAINS,
    FILTER,
    {"_passes", judge_passes, METH_O, PyDoc_STR("Whether the set lets a version through, a pre-release as any other; a text that is no version may be given.")},
    {"_items", set_items_call, METH_NOARGS, PyDoc_STR("The specifiers, in the order of the text.")},
    {"_subset", set_subset, METH_O, PyDoc_STR("Whether the other set admits each version that this one does: a number, and a version that shows 0, or None.")},
    {"_disjoint", set_disjoint, METH_O, PyDoc_STR("Whether no version is admitted by both: the same.")},
    {"_joined", set_joined, METH_O, PyDoc_STR("The set of the specifiers of both.")},
    {"_says_more", set_says_more, METH_NOARGS, PyDoc_STR("Whether a specifier was told of pre-releases, of which the text has nothing.")},
    {NULL, NULL, 0, NULL},
};

static PyGetSetDef set_getters[] = {
    {"text", get_text, NULL, PyDoc_STR("The text as it was given."), NULL},
    {"normal_text", get_normal_text, NULL, PyDoc_STR("The normal form: the specifiers in the order of the text, their versions in normal form."), NULL},
    {"_text", get_text, NULL, PyDoc_STR("The same."), NULL},
    {"_is_exact", get_is_exact, NULL, PyDoc_STR("Whether a specifier compares texts."), NULL},
    {"_exact", get_exact, set_exact, PyDoc_STR("What compares texts."), NULL},
    {"_forced", get_forced, set_forced, PyDoc_STR("What was said of pre-releases."), NULL},
    {"prereleases", get_asks, set_forced,
     PyDoc_STR("What was said of pre-releases, else true where a specifier asks for them, else None. It can be assigned; no copy takes part."), NULL},
    {NULL, NULL, NULL, NULL, NULL},
};

static PyType_Slot set_slots[] = {
    {Py_tp_doc, (void *)PyDoc_STR("Set(specifiers='', prereleases=None)\n--\n\nA specifier set: the base of the class in pylock.specifiers.")},
    {Py_tp_new, set_new},
    {Py_tp_init, set_init},
    {Py_tp_dealloc, judge_dealloc},
    {Py_tp_traverse, set_traverse},
    {Py_tp_clear, set_clear},
    {Py_tp_hash, set_hash},
    {Py_tp_richcompare, set_compare},
    {Py_tp_str, set_str},
    {Py_tp_repr, judge_repr},
    {Py_tp_iter, set_iter},
    {Py_sq_length, set_length},
    {Py_sq_contains, judge_in},
    {Py_tp_methods, set_methods},
    {Py_tp_getset, set_getters},
    {0, NULL},
};

static PyType_Spec set_spec = {
    .name = "pylock._native.Set",
    .basicsize = sizeof(Set),
    .flags = Py_TPFLAGS_DEFAULT | Py_TPFLAGS_BASETYPE | Py_TPFLAGS_HAVE_GC,
    .slots = set_slots,
};

bool add_sets(PyObject *module, State *state)
{
    if (!add_type(module, "Set", &state->set, &set_spec)) return false;
    state->set_class = (PyTypeObject *)hold((PyObject *)state->set);
    return true;
}
