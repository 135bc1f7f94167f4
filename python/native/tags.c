/* Tags of wheels: three texts in lower case. */
#include "native.h"

/* Tags of longer texts aren't kept. */
enum { PIECES = 3, LONGEST_KEPT = 200 };

typedef struct {
    PyObject_HEAD
    State *state;
    /* the pieces with dashes between, an exact str, and its hash */
    PyObject *text;
    Py_hash_t hash;
    /* exact str: NULL until they were asked for, where the tag was made of the text */
    PyObject *pieces[PIECES];
    /* whether it is still to get its parts, by its __init__ */
    bool is_blank;
} Tag;

/* ---- texts in lower case ---- */

/* Finds bytes that aren't ASCII, and its capitals. */
static inline uint64_t greater_of(uint64_t word)
{
    /* the high bit of each byte: set from 'A' on, and behind 'Z' */
    uint64_t from_first = word + (0x80 - 'A') * EACH_BYTE, behind_last = word + (0x80 - 'Z' - 1) * EACH_BYTE;
    return word | (from_first & ~behind_last);
}

/* Whether a text is ASCII without capitals: it is in lower case then, and most are. */
static inline bool is_small(const uint8_t *text, size_t length)
{
    return has_none(text, length, greater_of);
}

/* What the method `lower` of another object than a text gives, which has to be one. */
static PyObject *lower_of_another(PyObject *object)
{
    PyObject *small = PyObject_CallMethod(object, "lower", NULL);
    if (small == NULL) return NULL;
    PyObject *exact = PyUnicode_Check(small) ? exact_text(small) : NULL;
    if (!PyUnicode_Check(small)) PyErr_Format(PyExc_TypeError, "expected a str, not %R", (PyObject *)Py_TYPE(small));
    Py_DECREF(small);
    return exact;
}

/* The text in lower case, as str.lower has it. */
static PyObject *lower(PyObject *object)
{
    if (!PyUnicode_Check(object)) return lower_of_another(object);
    /* of a class that is made from str, its own `lower` isn't asked */
    PyObject *exact = exact_text(object);
    PyObject *small = exact == NULL ? NULL : PyObject_CallMethod(exact, "lower", NULL);
    Py_XDECREF(exact);
    return small;
}

static void let_pieces_go(PyObject **pieces, int count)
{
    while (count > 0) Py_DECREF(pieces[--count]);
}

/* Three texts in lower case: false with an exception. */
static bool lower_pieces(PyObject *const *given, PyObject **pieces)
{
    int count = 0;
    while (count < PIECES && (pieces[count] = lower(given[count])) != NULL) count++;
    if (count < PIECES) let_pieces_go(pieces, count);
    return count == PIECES;
}

/* ---- making ---- */

/* A tag of its text, which is in lower case, whose reference it takes over, and of its pieces, or NULL where they aren't known.
 * Python mixes the hash of a text with a secret: who chooses tags can't make them fall together. */
static inline PyObject *made_tag(State *state, PyTypeObject *type, PyObject *text, PyObject *const *pieces)
{
    Py_hash_t hash = text == NULL ? -1 : short_hash(text);
    Tag *tag = hash == -1 ? NULL : (Tag *)new_object_of(state, type, &state->spare_tags, sizeof(Tag));
    if (tag == NULL) {
        Py_XDECREF(text);
        return NULL;
    }
    tag->text = text;
    tag->hash = hash;
    tag->is_blank = false;
    for (int index = 0; pieces != NULL && index < PIECES; index++) tag->pieces[index] = hold(pieces[index]);
    return (PyObject *)tag;
}

/* Three texts of a tuple with dashes between: NULL with an exception. */
static PyObject *joined(PyObject *pieces)
{
    PyObject *dash = PyUnicode_DecodeLatin1("-", 1, NULL), *text = dash == NULL ? NULL : PyUnicode_Join(dash, pieces);
    Py_XDECREF(dash);
    return text;
}

/* Makes the letters of a text small, where it is ASCII of three pieces with dashes between. */
static bool make_small(uint8_t *text, size_t length)
{
    int dashes = 0;
    for (size_t place = 0; place < length; place++) {
        if (text[place] >= 0x80) return false;
        dashes += text[place] == '-';
        if (text[place] >= 'A' && text[place] <= 'Z') text[place] += 'a' - 'A';
    }
    return dashes == PIECES - 1;
}

/* The text of three exact str of a tuple in lower case, where they are ASCII and short; NULL, maybe with an exception, of others.
 * `is_given` is whether they were in lower case already; where they weren't, the dashes of the text are those between them
 * alone. */
#if NATIVE_IS_MODERN
static inline PyObject *small_text(PyObject *tuple, PyObject **pieces, bool *is_given)
{
    uint8_t near[RESULT_ROOM];
    size_t written = 0;
    for (int index = 0; index < PIECES; index++) {
        Py_ssize_t length = 0;
        pieces[index] = PyTuple_GetItem(tuple, index);
        const char *bytes = PyUnicode_CheckExact(pieces[index]) ? PyUnicode_AsUTF8AndSize(pieces[index], &length) : NULL;
        if (bytes == NULL || (size_t)length >= RESULT_ROOM - written) {
            PyErr_Clear();
            return NULL;
        }
        memcpy(near + written, bytes, (size_t)length);
        written += (size_t)length;
        near[written++] = '-';
    }
    /* but the last dash */
    written--;
    *is_given = is_small(near, written);
    if (!*is_given && !make_small(near, written)) return NULL;
    return PyUnicode_DecodeASCII((const char *)near, (Py_ssize_t)written, NULL);
}
#else
/* The bytes of a text are an object of their own here, so they are asked for once. */
static PyObject *small_text(PyObject *tuple, PyObject **pieces, bool *is_given)
{
    Text view;
    uint8_t near[RESULT_ROOM];
    for (int index = 0; index < PIECES; index++)
        if (!PyUnicode_CheckExact(pieces[index] = PyTuple_GetItem(tuple, index))) return NULL;
    PyObject *text = joined(tuple), *small = NULL;
    if (text == NULL || !text_of(text, &view)) {
        Py_XDECREF(text);
        return NULL;
    }
    *is_given = is_small(view.bytes, view.length);
    if (!*is_given && view.length <= RESULT_ROOM) {
        memcpy(near, view.bytes, view.length);
        if (make_small(near, view.length)) small = PyUnicode_DecodeLatin1((const char *)near, (Py_ssize_t)view.length, NULL);
    }
    text_done(&view);
    if (*is_given) return text;
    Py_DECREF(text);
    return small;
}
#endif

/* The tag of the arguments of a call. */
static PyObject *tag_of_call(State *state, PyTypeObject *type, PyObject *arguments, Py_ssize_t count, PyObject *named)
{
    static char *words[] = {"interpreter", "abi", "platform", NULL};
    PyObject *taken[MOST_TAKEN], *pieces[PIECES];
    bool is_given;
    PyObject *text = named == NULL && count == PIECES ? small_text(arguments, pieces, &is_given) : NULL;
    /* the arguments of the call, which holds them, become the pieces; others are cut from the text */
    if (text != NULL) return made_tag(state, type, text, is_given ? pieces : NULL);
    if (PyErr_Occurred() || !take_arguments(arguments, named, "OOO:Tag", words, taken)) return NULL;
    bool is_good = lower_pieces(taken, pieces);
    let_arguments_go(taken);
    if (!is_good) return NULL;
    PyObject *each = PyTuple_Pack(PIECES, pieces[0], pieces[1], pieces[2]);
    PyObject *tag = made_tag(state, type, each == NULL ? NULL : joined(each), pieces);
    Py_XDECREF(each);
    let_pieces_go(pieces, PIECES);
    return tag;
}

/* A tag that is blank gets its parts; others have them from when they were made. */
static int tag_init(PyObject *self, PyObject *arguments, PyObject *named)
{
    Tag *tag = (Tag *)self;
    if (!tag->is_blank) return 0;
    Tag *made = (Tag *)tag_of_call(tag->state, tag->state->tag, arguments, PyTuple_Size(arguments), named);
    if (made == NULL) return -1;
    PyObject *text = tag->text;
    tag->text = made->text;
    tag->hash = made->hash;
    tag->is_blank = false;
    made->text = text;
    for (int index = 0; index < PIECES; index++) {
        PyObject *piece = tag->pieces[index];
        tag->pieces[index] = made->pieces[index];
        made->pieces[index] = piece;
    }
    Py_DECREF((PyObject *)made);
    return 0;
}

/* A class that is made from this one may have an __init__ of its own, and call that of its base with the pieces. Without
 * arguments the tag is to be read by a pickle, or its __init__ refuses it. */
static PyObject *tag_new(PyTypeObject *type, PyObject *arguments, PyObject *named)
{
    State *state = state_of_type(type);
    if (state == NULL) return NULL;
    Py_ssize_t count = PyTuple_Size(arguments);
    bool is_to_be_read = named == NULL && count == 0;
    bool has_own_init = type != state->tag && PyType_GetSlot(type, Py_tp_init) != (void *)tag_init;
    if (!is_to_be_read && !has_own_init) return tag_of_call(state, type, arguments, count, named);
    PyObject *tag = made_tag(state, type, PyUnicode_FromString("--"), NULL);
    if (tag != NULL) ((Tag *)tag)->is_blank = true;
    return tag;
}

static void tag_dealloc(PyObject *self)
{
    Tag *tag = (Tag *)self;
    PyObject_GC_UnTrack(self);
    /* str, at whose end nothing runs */
    for (int index = 0; index < PIECES; index++) Py_XDECREF(tag->pieces[index]);
    Py_DECREF(tag->text);
    leave_object(self, &tag->state->spare_tags);
}

/* ---- what is asked of a tag ---- */

/* Cuts a text into its pieces, which has a dash behind each but the last: false with an exception. */
static bool cut_pieces(PyObject *text, PyObject **pieces)
{
    Text view, piece;
    int count = 0;
    if (!text_of(text, &view)) return false;
    Text rest = view;
    for (; count < PIECES; count++) {
        cut_text(&rest, '-', &piece);
        if ((pieces[count] = str_of(piece.bytes, piece.length)) == NULL) break;
    }
    text_done(&view);
    if (count < PIECES) let_pieces_go(pieces, count);
    return count == PIECES;
}

/* Whether the tag has its pieces, from now on: false with an exception. */
static bool has_pieces(Tag *tag)
{
    PyObject *pieces[PIECES];
    if (tag->pieces[0] != NULL) return true;
    PyObject *text = hold(tag->text);
    bool is_good = cut_pieces(text, pieces);
    let_go(text);
    for (int index = 0; is_good && index < PIECES; index++) {
        /* a finalizer that ran meanwhile may have asked for them too */
        if (tag->pieces[index] == NULL)
            tag->pieces[index] = pieces[index];
        else
            Py_DECREF(pieces[index]);
    }
    return is_good;
}

/* Tags of other texts differ; those of one text may too, as a piece may have a dash where it was given alone. */
static int are_equal(Tag *left, Tag *right)
{
    if (left == right) return 1;
    if (left->hash != right->hash) return 0;
    int equal = left->text == right->text ? 1 : PyObject_RichCompareBool(left->text, right->text, Py_EQ);
    if (equal <= 0) return equal;
    if (!has_pieces(left) || !has_pieces(right)) return -1;
    for (int index = 0; equal > 0 && index < PIECES; index++)
        equal = left->pieces[index] == right->pieces[index] ? 1 : PyUnicode_Compare(left->pieces[index], right->pieces[index]) == 0;
    return PyErr_Occurred() ? -1 : equal;
}

static PyObject *tag_compare(PyObject *left, PyObject *right, int how)
{
    bool is_tag = Py_TYPE(left) == Py_TYPE(right) || is_of(right, ((Tag *)left)->state->tag);
    if (!is_tag || (how != Py_EQ && how != Py_NE)) {
        Py_INCREF(Py_NotImplemented);
        return Py_NotImplemented;
    }
    int equal = are_equal((Tag *)left, (Tag *)right);
    return equal < 0 ? NULL : PyBool_FromLong(equal == (how == Py_EQ));
}

static PyObject *tag_str(PyObject *self)
{
    PyObject *text = ((Tag *)self)->text;
    Py_INCREF(text);
    return text;
}

static Py_hash_t tag_hash(PyObject *self)
{
    return ((Tag *)self)->hash;
}

static PyObject *tag_repr(PyObject *self)
{
    return PyUnicode_FromFormat("<%S>", self);
}

static PyObject *get_piece(PyObject *self, void *place)
{
    PyObject *const *piece = &((Tag *)self)->pieces[(intptr_t)place];
    if (*piece == NULL && !has_pieces((Tag *)self)) return NULL;
    Py_INCREF(*piece);
    return *piece;
}

/* A tag can't be changed: a copy is the tag itself. */
static PyObject *tag_copy(PyObject *self, PyObject *memo)
{
    (void)memo;
    Py_INCREF(self);
    return self;
}

/* What a pickle has, which asks this first: the arguments of the class, of which the Python layer tells of one's own. */
static PyObject *tag_reduce_ex(PyObject *self, PyObject *protocol)
{
    Tag *tag = (Tag *)self;
    if (Py_TYPE(self) != tag->state->tag_class) return usual_reduce(self, protocol);
    if (!has_pieces(tag)) return NULL;
    PyObject *arguments = PyTuple_Pack(PIECES, tag->pieces[0], tag->pieces[1], tag->pieces[2]);
    PyObject *reduced = arguments == NULL ? NULL : PyTuple_Pack(2, (PyObject *)Py_TYPE(self), arguments);
    Py_XDECREF(arguments);
    return reduced;
}

static PyMethodDef tag_methods[] = {
    {"__reduce_ex__", tag_reduce_ex, METH_O, PyDoc_STR("What a pickle has.")},
    {"__copy__", tag_copy, METH_NOARGS, PyDoc_STR("The tag itself.")},
    {"__deepcopy__", tag_copy, METH_O, PyDoc_STR("The tag itself.")},
    {NULL, NULL, 0, NULL},
};

static PyGetSetDef tag_getters[] = {
    {"interpreter", get_piece, NULL, PyDoc_STR("The part of the Python, as cp312."), (void *)(intptr_t)0},
    {"abi", get_piece, NULL, PyDoc_STR("The part of the ABI, as abi3."), (void *)(intptr_t)1},
    {"platform", get_piece, NULL, PyDoc_STR("The part of the platform, as win32."), (void *)(intptr_t)2},
    {NULL, NULL, NULL, NULL, NULL},
};

#define TAG_TEXT                                                                                                         \
    "Tag(interpreter, abi, platform)\n--\n\n"                                                                            \
    "A tag of three parts, in lower case: `interpreter`, `abi` and `platform`.\n\n"                                       \
    ">>> Tag(\"CP312\", \"abi3\", \"any\")\n<cp312-abi3-any>\n"                                                           \
    ">>> Tag(\"py3\", \"none\", \"any\") == Tag(\"PY3\", \"none\", \"any\")\nTrue\n"

static PyType_Slot tag_slots[] = {
    {Py_tp_doc, (void *)PyDoc_STR(TAG_TEXT)},
    {Py_tp_new, tag_new},
    {Py_tp_init, tag_init},
    {Py_tp_dealloc, tag_dealloc},
    {Py_tp_traverse, visit_type},
    {Py_tp_hash, tag_hash},
    {Py_tp_richcompare, tag_compare},
    {Py_tp_str, tag_str},
    {Py_tp_repr, tag_repr},
    {Py_tp_methods, tag_methods},
    {Py_tp_getset, tag_getters},
    {0, NULL},
};

/* the Python layer has this type itself: a class in Python that is made from it would take longer to make and to free */
static PyType_Spec tag_spec = {
    .name = "pylock._tag.Tag",
    .basicsize = sizeof(Tag),
    .flags = Py_TPFLAGS_DEFAULT | Py_TPFLAGS_BASETYPE | Py_TPFLAGS_HAVE_GC,
    .slots = tag_slots,
};

/* ---- tags of the names of wheels, which come again ---- */

/* The tag of an exact str of three pieces, which are cut where one is asked for. */
static Tag *cut_tag(State *state, PyObject *text)
{
    Text view;
    if (!text_of(text, &view)) return NULL;
    PyObject *small = is_small(view.bytes, view.length) ? hold(text) : lower(text);
    text_done(&view);
    return (Tag *)made_tag(state, state->tag_class, small, NULL);
}

/* The tag of a text as the one that is kept at its place, or a new one, which is kept there where it came last too: one that
 * comes once isn't worth its place. */
static PyObject *tag_of_text(State *state, PyObject *text)
{
    Py_hash_t hash = short_hash(text);
    KeptTag *place = &state->tags[(size_t)hash % MOST_TAGS];
    Tag *kept = (Tag *)place->tag;
    /* whoever got a tag may have given it another class */
    if (kept != NULL && Py_TYPE(kept) == state->tag_class && kept->hash == hash && PyUnicode_Compare(kept->text, text) == 0)
        return hold((PyObject *)kept);
    Tag *tag = hash == -1 ? NULL : cut_tag(state, text);
    if (tag == NULL) return NULL;
    bool is_kept = place->seen == hash && tag->text == text && PyUnicode_GetLength(text) <= LONGEST_KEPT;
    place->seen = hash;
    if (is_kept) replace(&place->tag, (PyObject *)tag);
    return (PyObject *)tag;
}

PyObject *tags_of(State *state, Record *record)
{
    PyObject *tags = PyFrozenSet_New(NULL);
    for (size_t count = 1; tags != NULL && record->has_more; count++) {
        PyObject *text = next_field(record), *tag = text == NULL ? NULL : tag_of_text(state, text);
        /* nobody else has the set yet; a long text may mean more tags than anybody waits for */
        if (tag == NULL || PySet_Add(tags, tag) < 0 || (count % 256 == 0 && PyErr_CheckSignals() < 0)) Py_CLEAR(tags);
        Py_XDECREF(text);
        Py_XDECREF(tag);
    }
    return tags;
}

/* ---- order ---- */

/* The pieces of a part in order, as a text: the part itself where they are. */
static PyObject *ordered_part(PyObject *part)
{
    if (PyUnicode_FindChar(part, '.', 0, PyUnicode_GetLength(part), 1) < 0) return hold(part);
    PyObject *dot = PyUnicode_FromString("."), *pieces = dot == NULL ? NULL : PyUnicode_Split(part, dot, -1), *ordered = NULL;
    if (pieces != NULL && PyList_Sort(pieces) == 0) ordered = PyUnicode_Join(dot, pieces);
    Py_XDECREF(dot);
    Py_XDECREF(pieces);
    return ordered;
}

/* Whether one text comes before another, or is equal to it: in the order of their bytes, which is that of their letters. */
static bool is_no_later(const Text *one, const Text *other)
{
    int order = memcmp(one->bytes, other->bytes, one->length < other->length ? one->length : other->length);
    return order < 0 || (order == 0 && one->length <= other->length);
}

/* Whether the pieces of a part are in order. */
static bool is_in_order(const Text *part)
{
    Text before = {part->bytes, 0, NULL}, piece = *part;
    const uint8_t *end = part->bytes + part->length, *dot;
    do {
        dot = memchr(piece.bytes, '.', (size_t)(end - piece.bytes));
        piece.length = (size_t)((dot == NULL ? end : dot) - piece.bytes);
        if (!is_no_later(&before, &piece)) return false;
        before = piece;
        piece.bytes += piece.length + 1;
    } while (dot != NULL);
    return true;
}

int are_in_order(PyObject *parts, Py_ssize_t from, PyObject **part, PyObject **ordered)
{
    for (Py_ssize_t index = from < 0 ? 0 : from; index < PyList_Size(parts); index++) {
        Text view;
        *part = PyList_GetItem(parts, index);
        if (!text_of(*part, &view)) return -1;
        bool is_good = is_in_order(&view);
        text_done(&view);
        if (is_good) continue;
        *ordered = ordered_part(*part);
        return *ordered == NULL ? -1 : 0;
    }
    return 1;
}

/* Finds the first part of a tag whose pieces aren't in order: false where there is none, or the text is no tag. */
static bool find_unordered(const Text *tag, Text *part)
{
    int dashes = 0;
    for (size_t place = 0; place < tag->length; place++) dashes += tag->bytes[place] == '-';
    Text rest = *tag;
    for (int index = 0; dashes == PIECES - 1 && index < PIECES; index++) {
        cut_text(&rest, '-', part);
        if (!is_in_order(part)) return true;
    }
    return false;
}

/* Whether the pieces of each part of a tag are in order, or it is none; else an exception says which aren't. */
static bool has_order(State *state, PyObject *tag)
{
    Text view, found;
    if (!text_of(tag, &view)) return false;
    bool is_good = !find_unordered(&view, &found);
    PyObject *part = is_good ? NULL : str_of(found.bytes, found.length), *ordered = part == NULL ? NULL : ordered_part(part);
    text_done(&view);
    if (ordered != NULL) raise_unlike(state, PYLOCK_TAG_PARTS, part, ordered, "order");
    Py_XDECREF(ordered);
    Py_XDECREF(part);
    return is_good;
}

static bool is_ascii(PyObject *text)
{
    Text view;
    if (!PyUnicode_Check(text) || !text_of(text, &view)) return false;
    bool is_it = view.length == (size_t)PyUnicode_GetLength(text);
    text_done(&view);
    return is_it;
}

/* parse_tag(tag, *, validate_order=False) */
static PyObject *parse_tag(PyObject *module, PyObject *const *arguments, Py_ssize_t count, PyObject *names)
{
    static const Signature signature = {"parse_tag", "tag", "validate_order"};
    bool validate_order = false;
    State *state = state_of(module);
    PyObject *text = one_and_flag(&signature, arguments, count, names, &validate_order);
    if (text == NULL) return NULL;
    /* of ASCII nothing else is refused in a text of three parts, so no tags need to be made before */
    bool is_checked = !validate_order || is_ascii(text);
    if (validate_order && is_checked && !has_order(state, text)) return NULL;
    PyObject *tags = record_of_text(state, pylock_tags, text, "tag", tags_of);
    if (tags != NULL && !is_checked && !has_order(state, text)) Py_CLEAR(tags);
    return tags;
}

/* ---- names of platforms ---- */

/* A text with a number in it, from 0 on: NULL with an exception. */
static PyObject *numbered_text(const Text *before, long number, const Text *behind)
{
    char near[RESULT_ROOM], digits[MOST_OF_DIGITS], *end = digits + sizeof digits, *begin = digits_before(end, (uint64_t)number);
    size_t count = (size_t)(end - begin), length = before->length + count + behind->length;
    char *text = length <= RESULT_ROOM ? near : PyMem_Malloc(length);
    if (text == NULL) return PyErr_NoMemory();
    memcpy(text, before->bytes, before->length);
    memcpy(text + before->length, begin, count);
    memcpy(text + before->length + count, behind->bytes, behind->length);
    PyObject *result = str_with_halves((const uint8_t *)text, length);
    if (text != near) PyMem_Free(text);
    return result;
}

/* numbered(before, from, last, behind): the texts with the numbers from one down to the last one, from 0 on, in them. */
static PyObject *numbered(PyObject *module, PyObject *const *arguments, Py_ssize_t count)
{
    Text before, behind;
    (void)module;
    if (!check_count("numbered", count, 4)) return NULL;
    long number = PyLong_AsLong(arguments[1]), last = number == -1 && PyErr_Occurred() ? -1 : PyLong_AsLong(arguments[2]);
    if (PyErr_Occurred() || !text_of(arguments[0], &before)) return NULL;
    bool is_good = text_of(arguments[3], &behind);
    PyObject *texts = is_good ? PyList_New(0) : NULL;
    for (; texts != NULL && number >= last && number >= 0; number--) {
        PyObject *text = numbered_text(&before, number, &behind);
        if (text == NULL || PyList_Append(texts, text) < 0 || (number % 256 == 0 && PyErr_CheckSignals() < 0)) Py_CLEAR(texts);
        Py_XDECREF(text);
    }
    text_done(&before);
    if (is_good) text_done(&behind);
    return texts;
}

static PyMethodDef tag_functions[] = {
    CALL("numbered", numbered, "The texts with the numbers from one down to another one between two texts."),
    CALL_NAMED("parse_tag", parse_tag, "parse_tag($module, tag, *, validate_order=False)\n--\n\nThe tags of a text, each part of which may be several pieces with `.` between. With `validate_order` the pieces of a part have to be in order (PEP 425)."),
    {NULL, NULL, 0, NULL},
};

bool add_tags(PyObject *module, State *state)
{
    if (!add_type(module, "Tag", &state->tag, &tag_spec)) return false;
    state->tag_class = (PyTypeObject *)hold((PyObject *)state->tag);
    state->spare_tags.type = state->tag;
    return PyModule_AddFunctions(module, tag_functions) == 0;
}
