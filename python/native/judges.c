/* How specifiers and sets of them judge a version: by the library, and by the Python layer where texts are compared. */
#include "specifiers.h"

/* ---- making and ending ---- */

bool take_judged(PyObject *arguments, PyObject *named, const char *format, char **words, PyObject **taken)
{
    Py_ssize_t count = PyTuple_Size(arguments), place = 0;
    PyObject *name, *second = NULL;
    /* the second one alone by its name, as mostly */
    if (named != NULL && count == 1 && PyDict_Size(named) == 1 && PyDict_Next(named, &place, &name, &second) != 0)
        second = PyUnicode_Check(name) && PyUnicode_CompareWithASCIIString(name, words[1]) == 0 ? hold(second) : NULL;
    if ((named != NULL && second == NULL) || count > 2) return take_arguments(arguments, named, format, words, taken);
    for (Py_ssize_t index = 0; index < MOST_TAKEN; index++)
        taken[index] = index < count ? hold(PyTuple_GetItem(arguments, index)) : NULL;
    if (second != NULL) taken[1] = second;
    return true;
}

bool say_forced(Judge *judge, PyObject *value)
{
    bool says = value != Py_None;
    if (!says && said_of(judge) == NULL) return true;
    Asked *asked = want_asked(judge);
    if (asked == NULL) return false;
    PyObject *before = asked->forced;
    asked->forced = says ? hold(value) : NULL;
    judge->unsatisfiable = UNKNOWN;
    Py_XDECREF(before);
    return true;
}

enum { MOST_ENDING = 50 };

static void end_judge(State *state, PyObject *self)
{
    state->ending++;
    if (((Judge *)self)->is_set) {
        SetAsked *asked = ((Set *)self)->asked;
        forget_set(self);
        if (asked != NULL) {
            Py_CLEAR(asked->asked.forced);
            free_asked(state, asked);
        }
        free_object(self);
    } else {
        forget_specifier(self);
        Py_CLEAR(((Specifier *)self)->asked.forced);
        leave_object(self, &state->spare_specifiers);
    }
    state->ending--;
}

void judge_dealloc(PyObject *self)
{
    State *state = ((Judge *)self)->state;
    PyObject_GC_UnTrack(self);
    if (state->ending == MOST_ENDING) {
        /* the state stays, as it is used by each that waits */
        ((Judge *)self)->next = state->waiting;
        state->waiting = self;
        return;
    }
    state->users++;
    end_judge(state, self);
    while (state->ending == 0 && state->waiting != NULL) {
        PyObject *next = state->waiting;
        state->waiting = ((Judge *)next)->next;
        ((Judge *)next)->state = state;
        end_judge(state, next);
    }
    leave_state(state);
}

/* ---- the slot ---- */

/* The text of a set, or that of the pair of a specifier, whose members are held. */
static PyObject *take_text(Judge *judge, Pair *pair)
{
    if (judge->is_set) return set_text((PyObject *)judge);
    return take_pair((Specifier *)judge, pair) ? text_of_pair(pair) : NULL;
}

/* Whether it is the text still, as what else ran meanwhile may have read another one. */
static bool is_text_of(const Judge *judge, PyObject *text, const Pair *pair)
{
    return judge->is_set ? ((const Set *)judge)->text == text : is_pair_of(pair, (const Specifier *)judge);
}

/* Reads the text into the slot, unless there is another text or a slot by now: false with an exception. */
static bool read_slot(Judge *judge, pylock_set *slot, PyObject *text, const Pair *pair)
{
    Text view;
    if (!text_of(text, &view)) return false;
    bool is_its = is_text_of(judge, text, pair) && !slot->full;
    int32_t code = is_its ? pylock_set_parse(slot, view.bytes, view.length) : PYLOCK_OK;
    text_done(&view);
    if (code != PYLOCK_OK) raise_refusal(judge->state, code, text, "specifier");
    return code == PYLOCK_OK;
}

pylock_set *fill_slot(Judge *judge)
{
    Asked *asked = want_asked(judge);
    while (asked != NULL && !asked->slot.full) {
        Pair pair = {NULL, NULL};
        PyObject *text = take_text(judge, &pair);
        bool is_good = text != NULL && read_slot(judge, &asked->slot, text, &pair);
        let_go(text);
        let_pair_go(&pair);
        if (!is_good) return NULL;
    }
    return asked == NULL ? NULL : &asked->slot;
}

/* ---- whether a version is admitted ---- */

/* The text of a version, or the text that it was read from: a borrowed reference. */
PyObject *given_text(State *state, PyObject *version)
{
    if (is_of(version, state->version)) return version_text(version);
    if (PyUnicode_Check(version)) return version;
    PyErr_Format(PyExc_TypeError, "expected a Version or a str, not %R", (PyObject *)Py_TYPE(version));
    return NULL;
}

bool is_no_version(int32_t code)
{
    return code == PYLOCK_NOT_UTF8 || code == PYLOCK_VERSION_SYNTAX || code == PYLOCK_VERSION_NUMBER;
}

PyObject *told_of(State *state, int32_t code, bool told, PyObject *text, PyObject *otherwise)
{
    if (code == PYLOCK_OK) return PyBool_FromLong(told);
    if (otherwise != NULL && is_no_version(code)) return hold(otherwise);
    if (code > 0) raise_refusal(state, code, text, "version");
    return NULL;
}

/* The code of the library's answer, or -1 with an exception. `text` is then that of the version. */
static int32_t ask(Judge *judge, PyObject *version, bool *admits, PyObject **text)
{
    Text view;
    *text = given_text(judge->state, version);
    if (*text == NULL || !text_of(*text, &view)) return -1;
    /* from the last look at the slot on nothing runs but the library */
    pylock_set *slot = fill_slot(judge);
    int32_t code = slot != NULL ? pylock_set_admits(slot, view.bytes, view.length, admits) : -1;
    text_done(&view);
    return code;
}

PyObject *judge_admits(PyObject *self, PyObject *version)
{
    Judge *judge = (Judge *)self;
    bool admits = false;
    PyObject *text;
    int32_t code = ask(judge, version, &admits, &text);
    return told_of(judge->state, code, admits, text, NULL);
}

/* The truth of a result, which is let go of: -1 with an exception. */
static int truth_of(PyObject *result)
{
    int truth = result == NULL ? -1 : PyObject_IsTrue(result);
    Py_XDECREF(result);
    return truth;
}

/* Whether the specifiers let it through, a pre-release as any other; -1 with an exception. */
static int passes(Judge *judge, PyObject *item)
{
    bool admits = false;
    PyObject *text;
    if (judge->has_exact) return truth_of(PyObject_CallMethod((PyObject *)judge, "_passes_exactly", "(O)", item));
    int32_t code = ask(judge, item, &admits, &text);
    if (code == PYLOCK_OK) return admits;
    /* the empty set says nothing of texts */
    if (is_no_version(code)) return judge->is_set && judge->count == 0;
    if (code > 0) raise_refusal(judge->state, code, text, "version");
    return -1;
}

bool judge_lets_all(const Judge *judge)
{
    const Set *set = (const Set *)judge;
    return judge->is_set && judge->count == 0 && (set->text != NULL || items_in(set) != NULL);
}

int judge_lets(Judge *judge, PyObject *item)
{
    return judge_lets_all(judge) ? 1 : passes(judge, item);
}

PyObject *judge_passes(PyObject *self, PyObject *item)
{
    int told = passes((Judge *)self, item);
    return told < 0 ? NULL : PyBool_FromLong(told);
}

int early_text(State *state, PyObject *text)
{
    Text view;
    size_t length;
    uint8_t none[1];
    pylock_version_kind kind;
    if (!text_of(text, &view)) return -1;
    /* the key has no room, and the kind is told then too */
    int32_t code = pylock_version_read(view.bytes, view.length, none, 0, &length, &kind);
    text_done(&view);
    if (code == PYLOCK_OK || code == PYLOCK_ROOM) return kind.is_prerelease ? YES : NO;
    if (is_no_version(code)) return NONE;
    raise_refusal(state, code, text, "version");
    return -1;
}

int early_item(State *state, PyObject *item)
{
    if (!is_of(item, state->version)) return early_text(state, item);
    int truth = truth_of(told_phase(state, item));
    return truth < 0 ? -1 : truth ? YES : NO;
}

/* The same where it was said what holds of pre-releases, or nothing was. */
static int contains(Judge *judge, PyObject *item, PyObject *prereleases, PyObject *installed)
{
    int takes_all = prereleases == Py_None ? 1 : PyObject_IsTrue(prereleases);
    if (takes_all == 0) takes_all = PyObject_IsTrue(installed);
    int told = takes_all < 0 ? -1 : passes(judge, item);
    if (told <= 0 || takes_all) return told;
    int early = early_item(judge->state, item);
    return early < 0 ? -1 : early != YES;
}

/* What was said of pre-releases: held, or None. */
static PyObject *forced_of(const Judge *judge)
{
    PyObject *said = said_of(judge);
    return hold(said == NULL ? Py_None : said);
}

bool place_arguments(const char *function, const char *const *words, PyObject *const *arguments, Py_ssize_t count, PyObject *names,
                     PyObject **places)
{
    Py_ssize_t named = names == NULL ? 0 : PyTuple_Size(names);
    bool is_good = count <= PLACES_OF_CALL, is_placed[PLACES_OF_CALL] = {false};
    for (Py_ssize_t index = 0; is_good && index < count; index++) {
        places[index] = arguments[index];
        is_placed[index] = true;
    }
    for (Py_ssize_t index = 0; is_good && index < named; index++) {
        /* one of those that weren't given by their places */
        int place = (int)count;
        PyObject *name = PyTuple_GetItem(names, index);
        while (place < PLACES_OF_CALL && PyUnicode_CompareWithASCIIString(name, words[place]) != 0) place++;
        is_good = place < PLACES_OF_CALL && !is_placed[place];
        if (!is_good) break;
        places[place] = arguments[count + index];
        is_placed[place] = true;
    }
    if (is_good && is_placed[0]) return true;
    PyErr_Format(PyExc_TypeError, "%s() takes '%s', and may take '%s' and '%s'", function, words[0], words[1], words[2]);
    return false;
}

PyObject *judge_contains(PyObject *self, PyObject *const *arguments, Py_ssize_t count, PyObject *names)
{
    static const char *const words[] = {"item", "prereleases", "installed"};
    Judge *judge = (Judge *)self;
    PyObject *places[PLACES_OF_CALL] = {NULL, Py_None, Py_False};
    if (!place_arguments("contains", words, arguments, count, names, places)) return NULL;
    PyObject *item = hold(places[0]), *installed = hold(places[2]);
    PyObject *prereleases = places[1] == Py_None ? forced_of(judge) : hold(places[1]);
    int told = contains(judge, item, prereleases, installed);
    let_go(prereleases);
    let_go(installed);
    let_go(item);
    return told < 0 ? NULL : PyBool_FromLong(told);
}

/* A class of one's own may say otherwise what `contains` is. */
int judge_in(PyObject *self, PyObject *item)
{
    Judge *judge = (Judge *)self;
    State *state = judge->state;
    if (Py_TYPE(self) != (judge->is_set ? state->set_class : state->specifier_class))
        return truth_of(PyObject_CallMethod(self, "contains", "(O)", item));
    PyObject *prereleases = forced_of(judge);
    int told = contains(judge, item, prereleases, Py_False);
    let_go(prereleases);
    return told;
}

/* ---- what else is asked ---- */

PyObject *get_is_exact(PyObject *self, void *closure)
{
    (void)closure;
    return PyBool_FromLong(((Judge *)self)->has_exact);
}

/* What the Python layer keeps here, or None. */
PyObject *get_exact(PyObject *self, void *closure)
{
    const Asked *asked = asked_of((Judge *)self);
    (void)closure;
    return hold(asked == NULL || asked->exact == NULL ? Py_None : asked->exact);
}

int set_exact(PyObject *self, PyObject *value, void *closure)
{
    Asked *asked = want_asked((Judge *)self);
    (void)closure;
    if (asked == NULL) return -1;
    PyObject *before = asked->exact;
    asked->exact = hold(value);
    Py_XDECREF(before);
    return 0;
}

PyObject *get_forced(PyObject *self, void *closure)
{
    (void)closure;
    return forced_of((Judge *)self);
}

int set_forced(PyObject *self, PyObject *value, void *closure)
{
    (void)closure;
    if (value == NULL) {
        PyErr_SetString(PyExc_AttributeError, "what was said of pre-releases can't be deleted");
        return -1;
    }
    return say_forced((Judge *)self, value) ? 0 : -1;
}

PyObject *get_asks(PyObject *self, void *closure)
{
    Judge *judge = (Judge *)self;
    (void)closure;
    if (said_of(judge) != NULL) return hold(said_of(judge));
    if (judge_lets_all(judge)) return hold(Py_None);
    int asks = judge->is_set ? set_asks(self) : specifier_asks(self);
    return asks < 0 ? NULL : hold(asks ? Py_True : Py_None);
}

PyObject *judge_repr(PyObject *self)
{
    Judge *judge = (Judge *)self;
    bool is_own = Py_TYPE(self) != (judge->is_set ? judge->state->set_class : judge->state->specifier_class);
    if (!is_own && said_of(judge) == NULL) {
        PyObject *text = PyObject_Str(self);
        PyObject *shown = text == NULL ? NULL : PyUnicode_FromFormat(judge->is_set ? "<SpecifierSet(%R)>" : "<Specifier(%R)>", text);
        Py_XDECREF(text);
        return shown;
    }
    PyObject *forced = hold(said_of(judge)), *shown = NULL;
    PyObject *name = PyObject_GetAttrString((PyObject *)Py_TYPE(self), "__name__"), *text = name == NULL ? NULL : PyObject_Str(self);
    if (text != NULL && forced == NULL)
        shown = PyUnicode_FromFormat("<%S(%R)>", name, text);
    else if (text != NULL)
        shown = PyUnicode_FromFormat("<%S(%R, prereleases=%R)>", name, text, forced);
    Py_XDECREF(text);
    Py_XDECREF(name);
    let_go(forced);
    return shown;
}
