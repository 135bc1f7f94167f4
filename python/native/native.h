/* The module pylock._native: the calls of libpylock.a for Python. It judges nothing: texts go in, results come out.
 *
 * It keeps to the limited API: of 3.10, or of 3.8 where Py_LIMITED_API says so, which lacks the UTF-8 view of a text. All
 * that it keeps lies in the state of the module, so each interpreter has its own.
 */
#ifndef PYLOCK_NATIVE_H
#define PYLOCK_NATIVE_H

#ifndef Py_LIMITED_API
#define Py_LIMITED_API 0x030A0000
#endif
#define PY_SSIZE_T_CLEAN
#include <Python.h>

#include <stdbool.h>
#include <stdint.h>
#include <string.h>

#include "pylock.h"

/* ---- what differs between the headers ----
 *
 * Since 3.12 these macros give no reference, as None and its like need none there. A Python before that may load what was
 * compiled with such headers, and counts it: it would end with "deallocating None". */
#undef Py_RETURN_NONE
#undef Py_RETURN_TRUE
#undef Py_RETURN_FALSE
#undef Py_RETURN_NOTIMPLEMENTED
#define Py_RETURN_NONE return Py_INCREF(Py_None), Py_None
#define Py_RETURN_TRUE return Py_INCREF(Py_True), Py_True
#define Py_RETURN_FALSE return Py_INCREF(Py_False), Py_False
#define Py_RETURN_NOTIMPLEMENTED return Py_INCREF(Py_NotImplemented), Py_NotImplemented

/* ---- what differs between the two limited APIs ---- */

#if Py_LIMITED_API >= 0x030A0000
#define NATIVE_IS_MODERN 1
#else
#define NATIVE_IS_MODERN 0
#endif

/* Types that no one else changes. The older API has none. */
#if NATIVE_IS_MODERN
#define NATIVE_FIXED Py_TPFLAGS_IMMUTABLETYPE
#else
#define NATIVE_FIXED 0
#endif

/* Functions that take an array of arguments are in the limited API from 3.10 on. The releases before it that the older one is
 * for, 3.8 and 3.9, have ended, and have the same calls under the same number. */
#ifndef METH_FASTCALL
#define METH_FASTCALL 0x0080
#endif

/* The rows in a table of methods of a function of positional arguments, and of one whose arguments may be given by their names. */
#define CALL(word, name, text) {word, (PyCFunction)(void (*)(void))name, METH_FASTCALL, PyDoc_STR(text)}
#define CALL_NAMED_AS(word, name, more, text)                                                                          \
    {word, (PyCFunction)(void (*)(void))name, METH_FASTCALL | METH_KEYWORDS | (more), PyDoc_STR(text)}
#define CALL_NAMED(word, name, text) CALL_NAMED_AS(word, name, 0, text)

/* The type of a specification, as the module holds it: of the module where the API has such types. */
PyTypeObject *type_of_spec(PyObject *module, PyType_Spec *spec);

/* ---- values that are held ----
 *
 * A borrowed value may go when something else runs: a method, a finalizer, or the collector, which may run where an object
 * is made. One that is used behind a call that may do so is held from before the call until it was used. */

static inline PyObject *hold(PyObject *object)
{
    Py_XINCREF(object);
    return object;
}

static inline void let_go(PyObject *object)
{
    Py_XDECREF(object);
}

enum { MOST_TAKEN = 3 };

/* The arguments of a call, of so many objects at most, by a format and the words for them as PyArg_ParseTupleAndKeywords has
 * these. Each is held, or NULL where it isn't given: Python 3.8 hands over the caller's own dict of named ones, which may be
 * changed at any time. False with an exception, and then none is. */
bool take_arguments(PyObject *arguments, PyObject *named, const char *format, char **words, PyObject **taken);
void let_arguments_go(PyObject **taken);

/* A walk over an exact dict, which may be changed meanwhile by what a member or a signal runs: the member that it stands at is
 * held. */
typedef struct {
    PyObject *dict, *key, *member;
    Py_ssize_t place, size, left;
} Walk;

Walk walk_over(PyObject *dict);
/* Goes on to the next member: false at the end, and with an exception where the dict's own iterator would raise it. */
bool walk_on(Walk *walk);
void end_walk(Walk *walk);
/* A copy of a dict, which nobody else has and which so holds what is borrowed of it. */
PyObject *own_dict(PyObject *dict);

/* ---- the state of the module ---- */

enum { MOST_SPARE = 64, MOST_TAGS = 2048, MOST_REFUSALS = 256 };

/* The memory of objects of a type that were let go of, for the next ones: what Python does for tuples and numbers. */
typedef struct {
    /* NULL where none is kept; it is held where the state has it */
    PyTypeObject *type;
    PyObject *each[MOST_SPARE];
    int count;
} Spares;

/* The same of parts of objects. */
typedef struct {
    void *each[MOST_SPARE];
    int count;
} SpareParts;

/* A tag that came twice, or NULL, for those of the same text, and the hash of the one that came last to its place. */
typedef struct {
    PyObject *tag;
    Py_hash_t seen;
} KeptTag;

typedef struct {
    /* the module, and each object of its types: an object may outlive the module where the collector takes both apart */
    Py_ssize_t users;
    /* NULL where the module was taken apart */
    PyTypeObject *version, *tag, *set, *specifier, *filter, *marker, *environment, *layers, *session, *run, *owner, *field_method;
    /* the classes of the Python layer, of which results are made: the types themselves until `use` says otherwise */
    PyTypeObject *version_class, *tag_class, *specifier_class, *set_class, *marker_class;
    /* the abstract class of specifiers and sets, or NULL */
    PyObject *abstract_class;
    /* the operators of specifiers and the letters of pre-releases: tuples */
    PyObject *operators, *letters;
    /* Python functions that tell the exception of a code, or NULL; and what the first has told, by its number */
    PyObject *refuse, *refuse_input, *refusals[MOST_REFUSALS];
    /* by the hashes of their texts */
    KeptTag tags[MOST_TAGS];
    Spares spare_tags, spare_versions, spare_specifiers;
    SpareParts spare_asked;
    /* how many specifiers and sets end within one another's end, and those that wait for the end of these */
    int ending;
    PyObject *waiting;
    /* the numbers of what a mapping may have for markers, by their names */
    PyObject *places;
} State;

State *state_of(PyObject *module);
/* Puts an object in the place of another one, or of none, which is let go of. */
void replace(PyObject **place, PyObject *object);
/* An object or a call uses the state no more, which is counted in `users`: the last one frees it. */
void leave_state(State *state);
/* The state of a process in which there has been one alone, as in most, so that no type needs to be asked for its own. It is
 * NULL until there is one, and `several` for ever from when there are others or it is gone. Interpreters with locks of their
 * own may look here at any time, and each finds its own state or that it is to ask. The header for such variables isn't
 * used, as that of gcc isn't one for clang. */
extern State several, *single;

/* That state, or NULL. */
static inline State *single_state(void)
{
    State *state = __atomic_load_n(&single, __ATOMIC_RELAXED);
    return state == &several ? NULL : state;
}

/* The state, by one of the module's types or a class that is made from it, which `own_state_of` asks. NULL with an exception where
 * there is none. */
State *own_state_of(PyTypeObject *type);

/* The state of the module, in a call of one of its functions. */
static inline State *state_of_call(PyObject *module)
{
    State *only = single_state();
    return only == NULL ? state_of(module) : only;
}

static inline State *state_of_type(PyTypeObject *type)
{
    State *only = single_state();
    return only == NULL ? own_state_of(type) : only;
}

/* Whether the object is a module of this file, and so has such a state. */
bool is_this_module(PyObject *object);

/* ---- texts ---- */

/* The UTF-8 of a str, as long as it is used. Half a character is handed on, for the library to refuse. */
typedef struct {
    const uint8_t *bytes;
    size_t length;
    /* holds the bytes where the str itself doesn't */
    PyObject *holder;
} Text;

/* What `text_of` does with all but an exact str that has its bytes. */
bool text_of_another(PyObject *object, Text *text);

static inline bool text_of(PyObject *object, Text *text)
{
#if NATIVE_IS_MODERN
    Py_ssize_t length;
    text->holder = NULL;
    if (PyUnicode_CheckExact(object)) {
        text->bytes = (const uint8_t *)PyUnicode_AsUTF8AndSize(object, &length);
        text->length = (size_t)length;
        if (text->bytes != NULL) return true;
        /* what was wrong is found again */
        PyErr_Clear();
    }
#endif
    return text_of_another(object, text);
}

static inline void text_done(Text *text)
{
    Py_CLEAR(text->holder);
}

/* Cuts off the piece up to the sign, or to the end. Whether the sign was there, and so another piece follows. */
bool cut_text(Text *rest, char sign, Text *piece);
/* The bytes of a bytes object. */
bool bytes_of(PyObject *object, Text *text);

/* 30 bits of the hash of a text or of bytes, or -1 with an exception: an int of so many takes less time to make, and they are
 * enough for millions. */
static inline Py_hash_t short_hash(PyObject *object)
{
    Py_hash_t hash = PyObject_Hash(object);
    return hash == -1 ? -1 : hash & 0x3fffffff;
}

enum { MOST_OF_DIGITS = 20 };

/* Writes a number's digits before an end, and gives where they begin. */
static inline char *digits_before(char *end, uint64_t number)
{
    do *--end = (char)('0' + number % 10);
    while ((number /= 10) > 0);
    return end;
}

/* The text itself as an exact str: a new reference. */
PyObject *exact_text(PyObject *object);

#define EACH_BYTE UINT64_C(0x0101010101010101)

/* Whether a function finds none of a text's bytes: the high bit of a byte says that it does, in a word of eight. A short text has
 * spaces before it. */
static inline bool has_none(const uint8_t *text, size_t length, uint64_t (*found_in)(uint64_t word))
{
    uint64_t found = 0, word = ' ' * EACH_BYTE;
    if (length < sizeof word)
        while (length > 0) word = word << 8 | text[--length];
    else {
        const uint8_t *last = text + length - sizeof word;
        for (; text < last; text += sizeof word) {
            memcpy(&word, text, sizeof word);
            found |= found_in(word);
        }
        /* the last one may begin within the one before */
        memcpy(&word, last, sizeof word);
    }
    return ((found | found_in(word)) & 0x80 * EACH_BYTE) == 0;
}

/* ---- results ---- */

enum { RESULT_ROOM = 512 };

/* A short result: it stands in `near`, or in memory that `result_done` gives back. */
typedef struct {
    uint8_t *bytes;
    size_t length;
    uint8_t near[RESULT_ROOM];
} Result;

typedef int32_t (*TextCall)(const uint8_t *text, size_t length, uint8_t *out, size_t room, size_t *needed);

/* Calls again, where the result is longer than what is near. */
int32_t long_result_of_text(TextCall call, const Text *text, Result *result);

/* What a call writes of a text. */
static inline int32_t result_of_text(TextCall call, const Text *text, Result *result)
{
    result->bytes = result->near;
    int32_t code = call(text->bytes, text->length, result->near, RESULT_ROOM, &result->length);
    return code == PYLOCK_ROOM ? long_result_of_text(call, text, result) : code;
}

/* What a kept text has. It is empty then. */
int32_t result_of_kept(pylock_text *kept, Result *result);

static inline void result_done(Result *result)
{
    if (result->bytes != result->near) PyMem_Free(result->bytes);
    result->bytes = result->near;
}

/* Whether the result is the text of the view. */
static inline bool is_as_written(const Result *result, const Text *view)
{
    return result->length == view->length && memcmp(result->bytes, view->bytes, view->length) == 0;
}

/* The result as a str: the text of the view itself where it is the same. */
PyObject *str_of_result(const Result *result, PyObject *text, const Text *view);

PyObject *str_of(const uint8_t *bytes, size_t length);
/* The same of the bytes of a Text, in which half characters may stand. */
PyObject *str_with_halves(const uint8_t *bytes, size_t length);
/* A kept text as a str. It is empty then. */
PyObject *str_of_kept(pylock_text *kept);
/* What is left of a record, and whether a field is. */
typedef struct {
    Text rest;
    bool has_more;
} Record;

/* The next field: a str, or None where it is absent. */
PyObject *next_field(Record *record);
/* All fields of a record: a tuple. */
PyObject *fields_of(const uint8_t *bytes, size_t length);

typedef int32_t (*RecordCall)(const uint8_t *text, size_t length, pylock_text *record);
typedef PyObject *(*RecordReader)(State *state, Record *record);

/* What the reader makes of the record that a call writes of a text; `kind` is that of `raise_refusal`. */
PyObject *record_of_text(State *state, RecordCall call, PyObject *text, const char *kind, RecordReader reader);

/* What the Python layer is told of an answer of the library: a tuple of its number and of what shows it, which is let go of,
 * or NULL where that is. */
PyObject *told_answer(int32_t answer, PyObject *witness);

/* ---- refusals ---- */

/* Raises the exception of a code that a call on this text has answered. `kind` says of what the text was to be one. */
void raise_refusal(State *state, int32_t code, PyObject *text, const char *kind);
/* The same of a text that isn't as another one, with which the message ends. */
void raise_unlike(State *state, int32_t code, PyObject *text, PyObject *other, const char *kind);
/* The same of a lock or an environment; `words` are those of the call, and are given back. */
void raise_input(State *state, int32_t code, pylock_text *words, PyObject *lock, PyObject *environment, bool json);

bool check_count(const char *name, Py_ssize_t count, Py_ssize_t wanted);
/* A function of one argument, and of a flag that is given by its name alone, or of none. */
typedef struct {
    const char *name, *one, *flag;
} Signature;

/* What `one_and_flag` does where there is more than the one, or less. */
PyObject *one_of_more(const Signature *signature, PyObject *const *arguments, Py_ssize_t count, PyObject *names, bool *flag);

/* The argument: a borrowed reference. `count` arguments stand before the named ones. */
static inline PyObject *one_and_flag(const Signature *signature, PyObject *const *arguments, Py_ssize_t count, PyObject *names, bool *flag)
{
    return count == 1 && names == NULL ? arguments[0] : one_of_more(signature, arguments, count, names, flag);
}

/* ---- the parts of the module ---- */

/* What each object of the module's types begins with. */
typedef struct {
    PyObject_HEAD
    State *state;
} Object;

bool is_of(PyObject *object, PyTypeObject *type);
/* Makes the type of a specification, which the state holds in the place, and puts it in the module. */
bool add_type(PyObject *module, const char *name, PyTypeObject **place, PyType_Spec *spec);
/* The type of an object, in the walk of the collector that is `own` to the module's type. */
int visit_type_in(PyObject *self, visitproc visit, void *arg, traverseproc own);
/* The collector's walk over an object that holds its type alone; and the maker of a type of which Python makes no object. */
int visit_type(PyObject *self, visitproc visit, void *arg);
PyObject *no_new(PyTypeObject *type, PyObject *arguments, PyObject *named);
/* An object of one of the module's types, or of a class that is made from it, all zeros but for the state. */
PyObject *new_object(State *state, PyTypeObject *type);
/* The same in the memory of one that was let go of, if there is any. */
static inline PyObject *new_object_of(State *state, PyTypeObject *type, Spares *spares, size_t size)
{
    if (type != spares->type || spares->count == 0) return new_object(state, type);
    PyObject *self = PyObject_Init(spares->each[--spares->count], type);
    memset((Object *)self + 1, 0, size - sizeof(Object));
    ((Object *)self)->state = state;
    state->users++;
    PyObject_GC_Track(self);
    return self;
}

/* What a pickle has of an object of a class of one's own: `object` asks the class. */
PyObject *usual_reduce(PyObject *self, PyObject *protocol);
/* Frees such an object, whose parts were given up. */
void free_object(PyObject *self);
/* The same, or keeps its memory. */
static inline void leave_object(PyObject *self, Spares *spares)
{
    PyTypeObject *type = Py_TYPE(self);
    if (type != spares->type || spares->count == MOST_SPARE) {
        free_object(self);
        return;
    }
    /* the module has its type still, and so its state */
    spares->each[spares->count++] = self;
    ((Object *)self)->state->users--;
    Py_DECREF(type);
}


PyObject *version_of_text(State *state, PyTypeObject *type, PyObject *text);
/* The same of a text that the library gave as a version's normal form; of the class of the Python layer. */
PyObject *version_of_normal(State *state, PyObject *text);
PyObject *version_normal(PyObject *self);
/* Whether a version is a pre-release: of a class of one's own it is asked, which may say otherwise. */
PyObject *told_phase(State *state, PyObject *version);
/* The normal form of a version or of its text, without zeros at the end of its release where these are to go; a text that is
 * no version as it is. */
PyObject *canonical_version(State *state, PyObject *item, bool strip);
/* The text that a version was read from: a borrowed reference, or NULL with an exception where it has none yet. */
PyObject *version_text(PyObject *self);

/* The text of a version, or the text itself: a borrowed reference, or NULL with an exception. */
PyObject *given_text(State *state, PyObject *version);
/* Whether the code says that a text is no version. */
bool is_no_version(int32_t code);
/* What a call has told of a version's text, by its code: true or false, and `otherwise`, where it isn't NULL, of a text that
 * is no version. With a code below 0 an exception is there. */
PyObject *told_of(State *state, int32_t code, bool told, PyObject *text, PyObject *otherwise);

/* The environment of a dict, or None, laid over layers, as long as no other call on them runs. NULL with an exception, or
 * without one where the dict has more than variables. `extra` and `has_extra` become those of the dict where it has one
 * and none was given; `extra` is a new reference where there is an environment. */
pylock_environment *layers_with(State *state, PyObject *layers, PyObject *mapping, PyObject **extra, bool *has_extra);

/* The environment that an object is: NULL with an exception where it is none. */
pylock_environment *environment_of_object(State *state, PyObject *object);
/* The marker of a text that the library has read as one; of the class of the Python layer. */
PyObject *marker_of_known(State *state, PyObject *text);

bool add_versions(PyObject *module, State *state);
bool add_specifiers(PyObject *module, State *state);
bool add_sets(PyObject *module, State *state);
bool add_filters(PyObject *module, State *state);
bool add_layers(PyObject *module, State *state);
bool add_markers(PyObject *module, State *state);
bool add_tags(PyObject *module, State *state);
bool add_names(PyObject *module, State *state);
bool add_kept(PyObject *module, State *state);
bool add_locks(PyObject *module, State *state);
bool add_tables(PyObject *module);
bool add_fields(PyObject *module, State *state);

PyObject *normal_name(State *state, PyObject *text);
/* An object of a class that is made in Python, without its __init__: NULL with an exception. */
PyObject *new_of(PyObject *kind);
/* Whether the pieces of the parts of a list, from this place on, are each in the order of texts (PEP 425); else 0, and the first
 * part that isn't and what it is to be, or -1 with an exception. */
int are_in_order(PyObject *parts, Py_ssize_t from, PyObject **part, PyObject **ordered);
/* The set of the tags that the next fields are; of the class of the Python layer. */
PyObject *tags_of(State *state, Record *record);

#endif
