/* What specifiers and sets of them share. */
#ifndef PYLOCK_SPECIFIERS_H
#define PYLOCK_SPECIFIERS_H

#include "native.h"

/* What a specifier and a set begin with; all but the pointers is one word, as a program may have many sets. */
typedef struct {
    PyObject_HEAD
    union {
        State *state;
        /* of one that waits for its end: the next that does, of the same state */
        PyObject *next;
    };
    uint64_t is_set : 8;
    /* whether an operator is ===, which compares texts */
    uint64_t has_exact : 8;
    /* of a specifier: the place of its operator, and whether its operand is a pre-release, a Told */
    uint64_t sign : 8, early : 2;
    /* of a set: what `is_unsatisfiable` has found, a Told; and how many specifiers it has */
    uint64_t unsatisfiable : 2, count : 36;
} Judge;

/* More specifiers than a memory has: a set that was joined of more counts so many. */
#define MOST_COUNTED ((UINT64_C(1) << 36) - 1)

/* What is known of a question. */
enum { UNKNOWN, NO, YES, NONE };

/* What becomes of a specifier or a set when it is asked for something. */
typedef struct {
    /* empty until a version is judged */
    pylock_set slot;
    /* -1 until it was asked for */
    Py_hash_t hash;
    /* what was said of pre-releases, or NULL where nothing was */
    PyObject *forced;
    /* what the Python layer keeps here: what compares texts */
    PyObject *exact;
} Asked;

typedef struct {
    Judge judge;
    Asked asked;
    /* the operator and the operand without white space: NULL until the specifier is read */
    PyObject *operator, *version;
    /* the operand in normal form: NULL until it was asked for */
    PyObject *normal;
} Specifier;

typedef struct {
    Asked asked;
    PyObject *items;
    /* what `str` gives: NULL until it was asked for */
    PyObject *shown;
} SetAsked;

/* A set has a text or its specifiers, or both; neither until it is read. Where sets were joined a part is a pair of what it
 * was made of, whose members are such parts again, until it is asked for: of the text, and of the specifiers, where a text
 * stands for those in it. */
typedef struct {
    Judge judge;
    PyObject *text;
    /* NULL until it is needed, and from then on there to the end of the set */
    SetAsked *asked;
} Set;

/* What was asked for, or NULL where nothing was yet. */
static inline Asked *asked_of(const Judge *judge)
{
    if (!judge->is_set) return &((Specifier *)judge)->asked;
    return (Asked *)((Set *)judge)->asked;
}

/* The place for it: NULL with an exception. The memory of some that were let go of is kept for the next ones. */
Asked *make_asked(Set *set);
void free_asked(State *state, SetAsked *asked);

static inline Asked *want_asked(Judge *judge)
{
    Asked *asked = asked_of(judge);
    return asked == NULL ? make_asked((Set *)judge) : asked;
}

/* What was said of pre-releases: a borrowed reference, or NULL where nothing was. */
static inline PyObject *said_of(const Judge *judge)
{
    const Asked *asked = asked_of(judge);
    return asked == NULL ? NULL : asked->forced;
}

/* The specifiers of a set as far as they are there: a borrowed reference, or NULL. */
static inline PyObject *items_in(const Set *set)
{
    return set->asked == NULL ? NULL : set->asked->items;
}

/* ---- where specifiers stand in a text ---- */

/* Where one begins and ends, of its operator and of its operand, as the library gives it. */
typedef struct {
    size_t sign, sign_end, operand, operand_end;
} Span;

enum { SPANS_NEAR = 16 };

/* The spans of a text: they stand in `near`, or in memory that `spans_done` gives back. */
typedef struct {
    Span *each;
    size_t count;
    Span near[SPANS_NEAR];
} Spans;

/* The code of the library, which judges the text. */
int32_t spans_of(const Text *text, Spans *spans);
void spans_done(Spans *spans);
/* The operator ===, which is as long as no other. */
bool is_exact_sign(const Span *span);

/* ---- specifiers ---- */

/* The specifiers of a set's text: a tuple. */
PyObject *specifiers_of_text(State *state, PyObject *text);
PyObject *specifier_text(PyObject *self);

/* The operator and the operand, which are held; or an exception where there are none. */
typedef struct {
    PyObject *operator, *version;
} Pair;

bool take_pair(const Specifier *specifier, Pair *pair);
void let_pair_go(Pair *pair);
/* Both as one text. */
PyObject *text_of_pair(const Pair *pair);
/* Whether the pair is the specifier's still: what else ran meanwhile may have read another text. */
bool is_pair_of(const Pair *pair, const Specifier *specifier);
/* What equal ones have in common: the operator, and the operand in normal form. */
PyObject *specifier_canonical(PyObject *self, PyObject *nothing);
/* Whether pre-releases are asked for: by what was said, or by the operand. -1 with an exception. */
int specifier_asks(PyObject *self);
/* Gives up all but what was said of pre-releases. All is out of it before anything else runs. */
void forget_specifier(PyObject *self);

/* ---- sets ---- */

PyObject *set_text(PyObject *self);
int set_asks(PyObject *self);
void forget_set(PyObject *self);

/* ---- both ---- */

/* The arguments of a call that makes one: positional, as mostly, or by their names. They are held. */
bool take_judged(PyObject *arguments, PyObject *named, const char *format, char **words, PyObject **taken);
/* False with an exception where there is no place for it. */
bool say_forced(Judge *judge, PyObject *value);
/* The end of both: of those that hold one another in a row each ends within the end of the one before, so many at most, and
 * the next waits, as Python's own containers do. */
void judge_dealloc(PyObject *self);

PyObject *judge_admits(PyObject *self, PyObject *version);
PyObject *judge_passes(PyObject *self, PyObject *item);
/* Whether an item is in it, as `in` says; and the slot that has its text, or NULL with an exception. */
int judge_in(PyObject *self, PyObject *item);
pylock_set *fill_slot(Judge *judge);
/* Whether a text is a pre-release, a Told: NONE of a text that is no version, -1 with an exception. The same of a text or a
 * version. */
int early_text(State *state, PyObject *text);
int early_item(State *state, PyObject *item);
/* Whether it lets an item of a filter through, -1 with an exception; and whether it lets each, as the empty set does. */
int judge_lets(Judge *judge, PyObject *item);
bool judge_lets_all(const Judge *judge);
PyObject *get_is_exact(PyObject *self, void *closure);
PyObject *get_exact(PyObject *self, void *closure);
int set_exact(PyObject *self, PyObject *value, void *closure);
PyObject *get_forced(PyObject *self, void *closure);
int set_forced(PyObject *self, PyObject *value, void *closure);
PyObject *get_asks(PyObject *self, void *closure);
PyObject *judge_repr(PyObject *self);

enum { PLACES_OF_CALL = 3 };

/* Puts the arguments of a call in the places of their words, of which the first is wanted: false with an exception. */
bool place_arguments(const char *function, const char *const *words, PyObject *const *arguments, Py_ssize_t count, PyObject *names,
                     PyObject **places);

PyObject *judge_contains(PyObject *self, PyObject *const *arguments, Py_ssize_t count, PyObject *names);
PyObject *judge_filter(PyObject *self, PyObject *const *arguments, Py_ssize_t count, PyObject *names);

#define CONTAINS                                                                                                         \
    CALL_NAMED("contains", judge_contains,                                                                               \
               "contains($self, item, prereleases=None, installed=None)\n--\n\n"                                         \
               "Whether the version is in it; a pre-release too, unless it is said here or was said before that these\n" \
               "are not admitted. One that is installed is admitted in any case.\n\n"                                    \
               "A text that is no version is in the empty set and in that of its own `===` alone.")
#define FILTER                                                                                                           \
    CALL_NAMED("filter", judge_filter,                                                                                   \
               "filter($self, iterable, prereleases=None, key=None)\n--\n\n"                                             \
               "The items whose versions are admitted; `key` gives the version of an item, which else is one.\n"         \
               "Pre-releases are among them where it is said, here or before, or a specifier asks for them; where\n"     \
               "nothing is said, if there is no final release.")

#endif
