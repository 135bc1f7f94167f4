/* Locks at once, sessions, runs, and the whole program. These calls may be long, so other threads run meanwhile. A session or a
 * run is used on its own thread alone, so nothing else comes to it while a call of that thread is under way. */
#include "native.h"

/* ---- a lock at once ---- */

typedef int32_t (*LockCall)(const uint8_t *lock, size_t length, bool json, pylock_text *out, int32_t *status);

static PyObject *report_of(PyObject *module, PyObject *const *arguments, Py_ssize_t count, const char *name, LockCall call)
{
    Text lock;
    pylock_text out = {0};
    int32_t status = 0, code;
    if (!check_count(name, count, 2) || !bytes_of(arguments[0], &lock)) return NULL;
    int json = PyObject_IsTrue(arguments[1]);
    if (json < 0) return NULL;
    Py_BEGIN_ALLOW_THREADS
    code = call(lock.bytes, lock.length, json, &out, &status);
    Py_END_ALLOW_THREADS
    if (code == PYLOCK_OK) {
        PyObject *text = str_of_kept(&out);
        return text == NULL ? NULL : Py_BuildValue("Ni", text, (int)status);
    }
    raise_refusal(state_of(module), code, Py_None, "lock");
    return NULL;
}

static PyObject *files(PyObject *module, PyObject *const *arguments, Py_ssize_t count)
{
    return report_of(module, arguments, count, "files", pylock_files);
}

static PyObject *audit(PyObject *module, PyObject *const *arguments, Py_ssize_t count)
{
    return report_of(module, arguments, count, "audit", pylock_audit);
}

static PyObject *lock_head(PyObject *module, PyObject *lock)
{
    Text view;
    pylock_text head = {0}, words = {0};
    int32_t code;
    if (!bytes_of(lock, &view)) return NULL;
    Py_BEGIN_ALLOW_THREADS
    code = pylock_lock_head(view.bytes, view.length, &head, &words);
    Py_END_ALLOW_THREADS
    if (code == PYLOCK_OK) return str_of_kept(&head);
    raise_input(state_of(module), code, &words, lock, Py_None, false);
    return NULL;
}

typedef int32_t (*MessageCall)(const uint8_t *bytes, size_t length, pylock_text *message);

static PyObject *message_of(PyObject *module, PyObject *bytes, MessageCall call)
{
    Text view;
    pylock_text message = {0};
    if (!bytes_of(bytes, &view)) return NULL;
    int32_t code = call(view.bytes, view.length, &message);
    if (code == PYLOCK_OK) return str_of_kept(&message);
    raise_refusal(state_of(module), code, Py_None, "lock");
    return NULL;
}

static PyObject *lock_message(PyObject *module, PyObject *lock)
{
    return message_of(module, lock, pylock_lock_message);
}

static PyObject *environment_message(PyObject *module, PyObject *json)
{
    return message_of(module, json, pylock_environment_message);
}

/* ---- the whole program ---- */

/* The bytes of a tuple, one behind another, and how long each is. */
typedef struct {
    size_t *lengths;
    size_t count;
    uint8_t *bytes;
    size_t length;
} Joined;

static void joined_done(Joined *joined)
{
    PyMem_Free(joined->lengths);
    PyMem_Free(joined->bytes);
}

/* How many bytes the parts have in all: -1 with an exception. A part isn't held: the tuple holds it, and can't be changed. */
static Py_ssize_t length_of_parts(PyObject *parts, Py_ssize_t count)
{
    Text part;
    Py_ssize_t length = 0;
    for (Py_ssize_t index = 0; index < count; index++) {
        if (!bytes_of(PyTuple_GetItem(parts, index), &part)) return -1;
        if (part.length > (size_t)(PY_SSIZE_T_MAX - length)) {
            PyErr_NoMemory();
            return -1;
        }
        length += (Py_ssize_t)part.length;
    }
    return length;
}

static bool copy_parts(PyObject *parts, Joined *joined)
{
    Text part;
    uint8_t *place = joined->bytes;
    for (size_t index = 0; index < joined->count; index++) {
        if (!bytes_of(PyTuple_GetItem(parts, (Py_ssize_t)index), &part)) return false;
        memcpy(place, part.bytes, part.length);
        joined->lengths[index] = part.length;
        place += part.length;
    }
    return true;
}

/* Joins a tuple of bytes: false with an exception, and then nothing is to be given back. No part of it is NULL. */
static bool join(PyObject *parts, Joined *joined)
{
    if (!PyTuple_Check(parts)) {
        PyErr_Format(PyExc_TypeError, "expected a tuple of bytes, not %R", (PyObject *)Py_TYPE(parts));
        return false;
    }
    Py_ssize_t count = PyTuple_Size(parts), length = length_of_parts(parts, count);
    if (length < 0) return false;
    /* as many pointers lie in the tuple, so this doesn't overflow */
    *joined = (Joined){PyMem_Malloc((size_t)count * sizeof(size_t)), (size_t)count, PyMem_Malloc((size_t)length), (size_t)length};
    if (joined->lengths == NULL || joined->bytes == NULL)
        PyErr_NoMemory();
    else if (copy_parts(parts, joined))
        return true;
    joined_done(joined);
    return false;
}

/* A kept text as bytes. It is empty then. */
static PyObject *bytes_of_kept(pylock_text *kept)
{
    size_t length = 0;
    PyObject *bytes = NULL;
    if (pylock_text_length(kept, &length) != PYLOCK_OK || length > PY_SSIZE_T_MAX)
        PyErr_NoMemory();
    else
        bytes = PyBytes_FromStringAndSize(NULL, (Py_ssize_t)length);
    if (bytes != NULL) pylock_text_copy(kept, (uint8_t *)PyBytes_AsString(bytes), length, &length);
    pylock_text_free(kept);
    return bytes;
}

/* run_program(words, files, input): the status, and what stands on standard output and on standard error. */
static PyObject *run_program(PyObject *module, PyObject *const *arguments, Py_ssize_t count)
{
    Joined words, files;
    Text input;
    pylock_text output = {0}, diagnostics = {0};
    int32_t status = 0, code;
    if (!check_count("run_program", count, 3) || !bytes_of(arguments[2], &input) || !join(arguments[0], &words)) return NULL;
    if (!join(arguments[1], &files)) {
        joined_done(&words);
        return NULL;
    }
    Py_BEGIN_ALLOW_THREADS
    code = pylock_main(words.lengths, words.count, words.bytes, words.length, files.lengths, files.count, files.bytes, files.length,
                       input.bytes, input.length, &output, &diagnostics, &status);
    Py_END_ALLOW_THREADS
    joined_done(&words);
    joined_done(&files);
    if (code != PYLOCK_OK) {
        raise_refusal(state_of(module), code, Py_None, "edit");
        return NULL;
    }
    PyObject *printed = bytes_of_kept(&output), *said = bytes_of_kept(&diagnostics);
    if (printed != NULL && said != NULL) return Py_BuildValue("iNN", (int)status, printed, said);
    Py_XDECREF(printed);
    Py_XDECREF(said);
    return NULL;
}

/* select_asked(words): the fields of what `select` is asked, or None. */
static PyObject *select_asked(PyObject *module, PyObject *arguments)
{
    Joined words;
    Result record;
    pylock_text asked = {0};
    PyObject *fields = NULL;
    if (!join(arguments, &words)) return NULL;
    record.bytes = record.near;
    int32_t code = pylock_select_asked(words.lengths, words.count, words.bytes, words.length, &asked);
    joined_done(&words);
    if (code == PYLOCK_OK) code = result_of_kept(&asked, &record);
    if (code != PYLOCK_OK)
        raise_refusal(state_of(module), code, Py_None, "edit");
    else
        fields = record.length == 0 ? hold(Py_None) : fields_of(record.bytes, record.length);
    result_done(&record);
    return fields;
}

/* ---- sessions and runs, and the thread that has them ---- */

/* A session of the library, or a run: the other slot stays empty. Where another thread lets go of it, it waits in the list of its
 * owner. */
typedef struct Place {
    pylock_session slot;
    pylock_run run;
    struct Place *next;
} Place;

/* A thread that has sessions and runs. It is in the dict of the thread's state, and each of them holds it. */
typedef struct {
    PyObject_HEAD
    State *state;
    unsigned long thread;
    Place *graves;
} Owner;

/* An object of a session, or of a run. */
typedef struct {
    PyObject_HEAD
    State *state;
    Owner *owner;
    Place *place;
} Session;

static void free_place(Place *place)
{
    if (place == NULL) return;
    pylock_session_free(&place->slot);
    pylock_run_free(&place->run);
    PyMem_Free(place);
}

/* Frees what other threads let go of: on the owner's thread, or after its end. */
static void sweep(Owner *owner)
{
    while (owner->graves != NULL) {
        Place *place = owner->graves;
        owner->graves = place->next;
        free_place(place);
    }
}

static void owner_dealloc(PyObject *self)
{
    PyObject_GC_UnTrack(self);
    sweep((Owner *)self);
    free_object(self);
}

static PyObject *owner_graves(PyObject *self, void *closure)
{
    long count = 0;
    (void)closure;
    for (const Place *place = ((Owner *)self)->graves; place != NULL; place = place->next) count++;
    return PyLong_FromLong(count);
}

static PyGetSetDef owner_getters[] = {
    {"graves", owner_graves, NULL, PyDoc_STR("How many sessions and runs wait for the thread."), NULL},
    {NULL, NULL, NULL, NULL, NULL},
};

static PyType_Slot owner_slots[] = {
    {Py_tp_doc, (void *)PyDoc_STR("A thread that has sessions and runs.")},
    {Py_tp_new, no_new},
    {Py_tp_dealloc, owner_dealloc},
    {Py_tp_traverse, visit_type},
    {Py_tp_getset, owner_getters},
    {0, NULL},
};

static PyType_Spec owner_spec = {
    .name = "pylock._native.Owner",
    .basicsize = sizeof(Owner),
    .flags = Py_TPFLAGS_DEFAULT | Py_TPFLAGS_HAVE_GC | NATIVE_FIXED,
    .slots = owner_slots,
};

/* The owner of this thread, with nothing left that waits: a new reference. */
static Owner *this_owner(State *state)
{
    PyObject *threads = PyThreadState_GetDict();
    PyObject *key = (PyObject *)state->owner;
    if (threads == NULL) return (Owner *)PyErr_NoMemory();
    if (key == NULL) return (Owner *)new_object(state, NULL);
    Owner *owner = (Owner *)PyDict_GetItemWithError(threads, key);
    if (owner != NULL) {
        Py_INCREF(owner);
        sweep(owner);
        return owner;
    }
    if (PyErr_Occurred()) return NULL;
    owner = (Owner *)new_object(state, state->owner);
    if (owner == NULL) return NULL;
    owner->thread = PyThread_get_thread_ident();
    if (PyDict_SetItem(threads, key, (PyObject *)owner) < 0) Py_CLEAR(owner);
    return owner;
}

static int session_traverse(PyObject *self, visitproc visit, void *arg)
{
    Py_VISIT((PyObject *)((Session *)self)->owner);
    return visit_type_in(self, visit, arg, session_traverse);
}

static void session_dealloc(PyObject *self)
{
    Session *session = (Session *)self;
    PyObject_GC_UnTrack(self);
    if (session->place != NULL && session->owner->thread != PyThread_get_thread_ident()) {
        session->place->next = session->owner->graves;
        session->owner->graves = session->place;
    } else
        free_place(session->place);
    Py_CLEAR(session->owner);
    free_object(self);
}

/* An empty session or run of this thread. */
static Session *new_session(State *state, PyTypeObject *type)
{
    Owner *owner = this_owner(state);
    if (owner == NULL) return NULL;
    Session *session = (Session *)new_object(state, type);
    if (session == NULL) {
        Py_DECREF(owner);
        return NULL;
    }
    session->owner = owner;
    session->place = PyMem_Malloc(sizeof(Place));
    if (session->place == NULL) {
        Py_DECREF(session);
        return (Session *)PyErr_NoMemory();
    }
    memset(session->place, 0, sizeof(Place));
    return session;
}

/* Whether this thread has the owner: a thread that begins later may have the number of one that ended. */
static bool has_owner(const Owner *owner)
{
    PyObject *threads = owner->thread == PyThread_get_thread_ident() ? PyThreadState_GetDict() : NULL;
    PyObject *key = (PyObject *)owner->state->owner;
    /* the module may have been taken apart */
    return threads != NULL && key != NULL && PyDict_GetItemWithError(threads, key) == (PyObject *)owner;
}

static bool is_on_its_thread(Session *session)
{
    if (has_owner(session->owner)) return true;
    if (!PyErr_Occurred()) PyErr_SetString(PyExc_RuntimeError, "pylock: a session or a run is used on its own thread alone");
    return false;
}

/* ---- starting ---- */

static PyObject *session_start(PyObject *module, PyObject *const *arguments, Py_ssize_t count)
{
    State *state = state_of(module);
    Text lock, environment;
    pylock_text words = {0};
    int32_t code;
    if (!check_count("session_start", count, 2)) return NULL;
    if (!bytes_of(arguments[0], &lock) || !bytes_of(arguments[1], &environment)) return NULL;
    Session *session = new_session(state, state->session);
    if (session == NULL) return NULL;
    pylock_session *slot = &session->place->slot;
    Py_BEGIN_ALLOW_THREADS
    code = pylock_session_start(slot, lock.bytes, lock.length, environment.bytes, environment.length, &words);
    Py_END_ALLOW_THREADS
    if (code == PYLOCK_OK) return (PyObject *)session;
    Py_DECREF(session);
    raise_input(state, code, &words, arguments[0], arguments[1], false);
    return NULL;
}

/* session_start_strict(lock, environment, json): a session, or the text of the findings for which there is none. */
static PyObject *session_start_strict(PyObject *module, PyObject *const *arguments, Py_ssize_t count)
{
    State *state = state_of(module);
    Text lock, environment;
    pylock_text words = {0};
    int32_t code;
    if (!check_count("session_start_strict", count, 3)) return NULL;
    if (!bytes_of(arguments[0], &lock) || !bytes_of(arguments[1], &environment)) return NULL;
    int json = PyObject_IsTrue(arguments[2]);
    Session *session = json < 0 ? NULL : new_session(state, state->session);
    if (session == NULL) return NULL;
    pylock_session *slot = &session->place->slot;
    Py_BEGIN_ALLOW_THREADS
    code = pylock_session_start_strict(slot, lock.bytes, lock.length, environment.bytes, environment.length, json, &words);
    Py_END_ALLOW_THREADS
    if (code == PYLOCK_OK) return (PyObject *)session;
    Py_DECREF(session);
    if (code == PYLOCK_LOCK_FINDINGS) return str_of_kept(&words);
    raise_input(state, code, &words, arguments[0], arguments[1], json);
    return NULL;
}

/* ---- edits ---- */

typedef int32_t (*EditOfOne)(pylock_session *, const uint8_t *, size_t, uint64_t *);
typedef int32_t (*EditOfTwo)(pylock_session *, const uint8_t *, size_t, const uint8_t *, size_t, uint64_t *);

/* An edit takes one text or two, or the number of an entry and at most one. */
typedef struct {
    const char *name;
    int texts;
    bool has_number;
    EditOfOne of_one;
    EditOfTwo of_two;
} Edit;

static const Edit edits[] = {
    {"set", 2, false, NULL, pylock_session_set},
    {"unset", 1, false, pylock_session_unset, NULL},
    {"add_extra", 1, false, pylock_session_add_extra, NULL},
    {"drop_extra", 1, false, pylock_session_drop_extra, NULL},
    {"add_group", 1, false, pylock_session_add_group, NULL},
    {"drop_group", 1, false, pylock_session_drop_group, NULL},
    {"add_extras", 1, false, pylock_session_add_extras, NULL},
    {"drop_extras", 1, false, pylock_session_drop_extras, NULL},
    {"add_groups", 1, false, pylock_session_add_groups, NULL},
    {"drop_groups", 1, false, pylock_session_drop_groups, NULL},
    {"tags", 1, false, pylock_session_tags, NULL},
    {"add", 1, false, pylock_session_add, NULL},
    {"line", 1, false, pylock_session_line, NULL},
    {"policy", 2, false, NULL, pylock_session_policy},
    {"policies", 2, false, NULL, pylock_session_policies},
    {"target", 2, false, NULL, pylock_session_target},
    {"put", 1, true, NULL, NULL},
    {"del", 0, true, NULL, NULL},
};

static const Edit *edit_of(PyObject *name)
{
    for (size_t index = 0; index < sizeof edits / sizeof edits[0]; index++)
        if (PyUnicode_Check(name) && PyUnicode_CompareWithASCIIString(name, edits[index].name) == 0) return &edits[index];
    PyErr_Format(PyExc_ValueError, "there is no edit %R", name);
    return NULL;
}

static int32_t make_edit(pylock_session *session, const Edit *edit, uint32_t number, const Text *texts, uint64_t *judged)
{
    if (edit->of_one != NULL) return edit->of_one(session, texts[0].bytes, texts[0].length, judged);
    if (edit->of_two != NULL)
        return edit->of_two(session, texts[0].bytes, texts[0].length, texts[1].bytes, texts[1].length, judged);
    if (edit->texts == 1) return pylock_session_put(session, number, texts[0].bytes, texts[0].length, judged);
    return pylock_session_del(session, number, judged);
}

/* The texts of an edit; false with an exception where one is none, and then none is held. */
static bool texts_of(PyObject *const *arguments, int count, Text *texts)
{
    for (int index = 0; index < count; index++) {
        if (text_of(arguments[index], &texts[index])) continue;
        while (index > 0) text_done(&texts[--index]);
        return false;
    }
    return true;
}

/* edit(name, number, text ..): `number` is None where the edit has none. A refusal is raised by the Python layer, which
 * shows the texts: its code is handed on, below zero. */
static PyObject *session_edit(PyObject *self, PyObject *const *arguments, Py_ssize_t count)
{
    Session *session = (Session *)self;
    Text texts[2];
    uint64_t judged = 0;
    int32_t code;
    const Edit *edit = count < 2 ? NULL : edit_of(arguments[0]);
    if (edit == NULL) return count < 2 ? PyErr_Format(PyExc_TypeError, "an edit has a name and a number") : NULL;
    if (!check_count("edit", count, 2 + edit->texts) || !is_on_its_thread(session)) return NULL;
    unsigned long long number = edit->has_number ? PyLong_AsUnsignedLongLong(arguments[1]) : 0;
    if (number == (unsigned long long)-1 && PyErr_Occurred()) return NULL;
    if (number > UINT32_MAX) return PyLong_FromLong(-PYLOCK_EDIT_NO_ENTRY);
    if (!texts_of(arguments + 2, edit->texts, texts)) return NULL;
    pylock_session *slot = &session->place->slot;
    Py_BEGIN_ALLOW_THREADS
    code = make_edit(slot, edit, (uint32_t)number, texts, &judged);
    Py_END_ALLOW_THREADS
    for (int index = 0; index < edit->texts; index++) text_done(&texts[index]);
    return code == PYLOCK_OK ? PyLong_FromUnsignedLongLong(judged) : PyLong_FromLong(-code);
}

/* ---- answers ---- */

typedef int32_t (*AnswerCall)(pylock_session *session, bool json, pylock_text *out, bool *is_plan);

static PyObject *answer_of(PyObject *self, PyObject *flag, AnswerCall call)
{
    Session *session = (Session *)self;
    pylock_text out = {0};
    bool is_plan = false;
    int32_t code;
    int json = PyObject_IsTrue(flag);
    if (json < 0 || !is_on_its_thread(session)) return NULL;
    pylock_session *slot = &session->place->slot;
    Py_BEGIN_ALLOW_THREADS
    code = call(slot, json, &out, &is_plan);
    Py_END_ALLOW_THREADS
    if (code == PYLOCK_OK) {
        PyObject *text = str_of_kept(&out);
        return text == NULL ? NULL : Py_BuildValue("NO", text, is_plan ? Py_True : Py_False);
    }
    raise_refusal(session->state, code, Py_None, "edit");
    return NULL;
}

static PyObject *session_answer(PyObject *self, PyObject *json)
{
    return answer_of(self, json, pylock_session_answer);
}

static PyObject *session_explain(PyObject *self, PyObject *json)
{
    return answer_of(self, json, pylock_session_explain);
}

/* The fields of each line of a text: a list. */
static PyObject *records_of(const Result *lines)
{
    Text rest = {lines->bytes, lines->length, NULL}, line;
    PyObject *records = PyList_New(0);
    while (records != NULL && cut_text(&rest, '\n', &line)) {
        PyObject *fields = fields_of(line.bytes, line.length);
        if (fields == NULL || PyList_Append(records, fields) < 0) Py_CLEAR(records);
        Py_XDECREF(fields);
    }
    return records;
}

static PyObject *session_picks(PyObject *self, PyObject *nothing)
{
    Session *session = (Session *)self;
    Result lines;
    pylock_text out = {0};
    bool is_plan = false;
    PyObject *records = NULL;
    int32_t code;
    (void)nothing;
    if (!is_on_its_thread(session)) return NULL;
    pylock_session *slot = &session->place->slot;
    Py_BEGIN_ALLOW_THREADS
    code = pylock_session_picks(slot, &out, &is_plan);
    Py_END_ALLOW_THREADS
    lines.bytes = lines.near;
    if (code == PYLOCK_OK) code = result_of_kept(&out, &lines);
    if (code == PYLOCK_OK)
        records = records_of(&lines);
    else
        raise_refusal(session->state, code, Py_None, "edit");
    result_done(&lines);
    return records == NULL ? NULL : Py_BuildValue("NO", records, is_plan ? Py_True : Py_False);
}

static PyObject *session_judged(PyObject *self, PyObject *nothing)
{
    Session *session = (Session *)self;
    pylock_text numbers = {0};
    (void)nothing;
    if (!is_on_its_thread(session)) return NULL;
    int32_t code = pylock_session_judged(&session->place->slot, &numbers);
    if (code == PYLOCK_OK) return str_of_kept(&numbers);
    raise_refusal(session->state, code, Py_None, "edit");
    return NULL;
}

static PyObject *session_close(PyObject *self, PyObject *nothing)
{
    Session *session = (Session *)self;
    (void)nothing;
    if (!is_on_its_thread(session)) return NULL;
    pylock_session_free(&session->place->slot);
    Py_RETURN_NONE;
}

static PyObject *session_owner(PyObject *self, void *closure)
{
    (void)closure;
    PyObject *owner = (PyObject *)((Session *)self)->owner;
    Py_INCREF(owner);
    return owner;
}

static PyMethodDef session_methods[] = {
    CALL("edit", session_edit, "Makes an edit: how many judgements it made, or the code of a refusal, below zero."),
    {"answer", session_answer, METH_O, PyDoc_STR("The answer, and whether it is a plan.")},
    {"picks", session_picks, METH_NOARGS, PyDoc_STR("The records of the answer, and whether it is a plan.")},
    {"explain", session_explain, METH_O, PyDoc_STR("What becomes of each entry, and whether the answer is a plan.")},
    {"judged", session_judged, METH_NOARGS, PyDoc_STR("The numbers that the last accepted edit judged.")},
    {"close", session_close, METH_NOARGS, PyDoc_STR("Frees what is kept.")},
    {NULL, NULL, 0, NULL},
};

static PyGetSetDef session_getters[] = {
    {"owner", session_owner, NULL, PyDoc_STR("The thread that has it."), NULL},
    {NULL, NULL, NULL, NULL, NULL},
};

static PyType_Slot session_slots[] = {
    {Py_tp_doc, (void *)PyDoc_STR("A lock in an environment.")},
    {Py_tp_new, no_new},
    {Py_tp_dealloc, session_dealloc},
    {Py_tp_traverse, session_traverse},
    {Py_tp_methods, session_methods},
    {Py_tp_getset, session_getters},
    {0, NULL},
};

static PyType_Spec session_spec = {
    .name = "pylock._native.Session",
    .basicsize = sizeof(Session),
    .flags = Py_TPFLAGS_DEFAULT | Py_TPFLAGS_HAVE_GC | NATIVE_FIXED,
    .slots = session_slots,
};

/* ---- runs ---- */

/* run_start(lock, environment, json): a run, and what it prints at first. */
static PyObject *run_start(PyObject *module, PyObject *const *arguments, Py_ssize_t count)
{
    State *state = state_of(module);
    Text lock, environment;
    pylock_text output = {0};
    int32_t code;
    if (!check_count("run_start", count, 3)) return NULL;
    if (!bytes_of(arguments[0], &lock) || !bytes_of(arguments[1], &environment)) return NULL;
    int json = PyObject_IsTrue(arguments[2]);
    Session *run = json < 0 ? NULL : new_session(state, state->run);
    if (run == NULL) return NULL;
    pylock_run *slot = &run->place->run;
    Py_BEGIN_ALLOW_THREADS
    code = pylock_run_start(slot, lock.bytes, lock.length, environment.bytes, environment.length, json, &output);
    Py_END_ALLOW_THREADS
    if (code == PYLOCK_OK) {
        PyObject *printed = bytes_of_kept(&output);
        if (printed != NULL) return Py_BuildValue("NN", (PyObject *)run, printed);
    } else
        raise_input(state, code, &output, arguments[0], arguments[1], false);
    Py_DECREF(run);
    return NULL;
}

/* feed(json, piece): what the piece has the run print. After a refusal the run is closed. */
static PyObject *run_feed(PyObject *self, PyObject *const *arguments, Py_ssize_t count)
{
    Session *run = (Session *)self;
    Text piece;
    pylock_text output = {0};
    int32_t code;
    if (!check_count("feed", count, 2) || !bytes_of(arguments[1], &piece)) return NULL;
    int json = PyObject_IsTrue(arguments[0]);
    if (json < 0 || !is_on_its_thread(run)) return NULL;
    pylock_run *slot = &run->place->run;
    Py_BEGIN_ALLOW_THREADS
    code = pylock_run_feed(slot, json, piece.bytes, piece.length, &output);
    Py_END_ALLOW_THREADS
    if (code == PYLOCK_OK) return bytes_of_kept(&output);
    pylock_run_free(slot);
    raise_refusal(run->state, code, Py_None, "edit");
    return NULL;
}

/* end(json): what the end of the input has the run print, and the status. The run is closed then. */
static PyObject *run_end(PyObject *self, PyObject *flag)
{
    Session *run = (Session *)self;
    pylock_text output = {0};
    int32_t status = 0, code;
    int json = PyObject_IsTrue(flag);
    if (json < 0 || !is_on_its_thread(run)) return NULL;
    pylock_run *slot = &run->place->run;
    Py_BEGIN_ALLOW_THREADS
    code = pylock_run_end(slot, json, &output, &status);
    Py_END_ALLOW_THREADS
    if (code == PYLOCK_OK) {
        PyObject *printed = bytes_of_kept(&output);
        return printed == NULL ? NULL : Py_BuildValue("Ni", printed, (int)status);
    }
    raise_refusal(run->state, code, Py_None, "edit");
    return NULL;
}

static PyMethodDef run_methods[] = {
    CALL("feed", run_feed, "What the next piece of the input has the run print."),
    {"end", run_end, METH_O, PyDoc_STR("What the end of the input has it print, and the status. The run is closed then.")},
    {NULL, NULL, 0, NULL},
};

static PyType_Slot run_slots[] = {
    {Py_tp_doc, (void *)PyDoc_STR("A run of `select`.")},
    {Py_tp_new, no_new},
    {Py_tp_dealloc, session_dealloc},
    {Py_tp_traverse, session_traverse},
    {Py_tp_methods, run_methods},
    {Py_tp_getset, session_getters},
    {0, NULL},
};

static PyType_Spec run_spec = {
    .name = "pylock._native.Run",
    .basicsize = sizeof(Session),
    .flags = Py_TPFLAGS_DEFAULT | Py_TPFLAGS_HAVE_GC | NATIVE_FIXED,
    .slots = run_slots,
};

static PyMethodDef lock_functions[] = {
    CALL("files", files, "What `pylock files` prints, and its status."),
    CALL("audit", audit, "What `pylock audit` prints, and its status."),
    {"lock_head", lock_head, METH_O, PyDoc_STR("The head of a lock, as a JSON document.")},
    {"lock_message", lock_message, METH_O, PyDoc_STR("Why a lock is refused.")},
    {"environment_message", environment_message, METH_O, PyDoc_STR("Why an environment is refused.")},
    CALL("session_start", session_start, "The session on a lock in an environment."),
    CALL("session_start_strict", session_start_strict, "The same on a lock that is taken strictly, or the findings."),
    CALL("run_start", run_start, "The run of `select` on a lock in an environment, and what it prints at first."),
    CALL("run_program", run_program, "The status of the whole program on files and an input in memory, and what it prints."),
    {"select_asked", select_asked, METH_O, PyDoc_STR("What the words ask `select` for, or None.")},
    {NULL, NULL, 0, NULL},
};

bool add_locks(PyObject *module, State *state)
{
    return (state->owner = type_of_spec(module, &owner_spec)) != NULL &&
        add_type(module, "Session", &state->session, &session_spec) && add_type(module, "Run", &state->run, &run_spec) &&
        PyModule_AddFunctions(module, lock_functions) == 0;
}
