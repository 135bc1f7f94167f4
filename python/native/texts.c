/* Texts that go in, results that come out, and refusals. */
#include "native.h"

/* ---- texts ---- */

static bool text_with_half_characters(PyObject *object, Text *text)
{
    PyErr_Clear();
    text->holder = PyUnicode_AsEncodedString(object, "utf-8", "surrogatepass");
    return text->holder != NULL && bytes_of(text->holder, text);
}

bool text_of_another(PyObject *object, Text *text)
{
    text->holder = NULL;
    if (!PyUnicode_CheckExact(object) && !PyUnicode_Check(object)) {
        PyErr_Format(PyExc_TypeError, "expected a str, not %R", (PyObject *)Py_TYPE(object));
        return false;
    }
#if NATIVE_IS_MODERN
    Py_ssize_t length;
    text->bytes = (const uint8_t *)PyUnicode_AsUTF8AndSize(object, &length);
    if (text->bytes != NULL) {
        text->length = (size_t)length;
        return true;
    }
#else
    text->holder = PyUnicode_AsUTF8String(object);
    if (text->holder != NULL) return bytes_of(text->holder, text);
#endif
    return PyErr_ExceptionMatches(PyExc_UnicodeEncodeError) && text_with_half_characters(object, text);
}

/* The holder stays as it is: the bytes are those of the object. */
bool bytes_of(PyObject *object, Text *text)
{
    char *bytes;
    Py_ssize_t length;
    if (PyBytes_AsStringAndSize(object, &bytes, &length) < 0) return false;
    text->bytes = (const uint8_t *)bytes;
    text->length = (size_t)length;
    return true;
}

bool cut_text(Text *rest, char sign, Text *piece)
{
    const uint8_t *at = memchr(rest->bytes, sign, rest->length);
    *piece = *rest;
    piece->holder = NULL;
    if (at != NULL) piece->length = (size_t)(at - rest->bytes);
    size_t taken = piece->length + (at != NULL);
    rest->bytes += taken;
    rest->length -= taken;
    return at != NULL;
}

PyObject *exact_text(PyObject *object)
{
    if (PyUnicode_CheckExact(object)) {
        Py_INCREF(object);
        return object;
    }
    return PyUnicode_FromObject(object);
}

/* ---- results ---- */

static bool make_room(Result *result)
{
    result->bytes = result->near;
    if (result->length <= RESULT_ROOM) return true;
    uint8_t *room = PyMem_Malloc(result->length);
    if (room == NULL) return false;
    result->bytes = room;
    return true;
}

int32_t long_result_of_text(TextCall call, const Text *text, Result *result)
{
    if (!make_room(result)) return PYLOCK_MEMORY;
    return call(text->bytes, text->length, result->bytes, result->length, &result->length);
}

int32_t result_of_kept(pylock_text *kept, Result *result)
{
    result->bytes = result->near;
    int32_t code = pylock_text_copy(kept, result->near, RESULT_ROOM, &result->length);
    if (code == PYLOCK_ROOM)
        code = make_room(result) ? pylock_text_copy(kept, result->bytes, result->length, &result->length) : PYLOCK_MEMORY;
    pylock_text_free(kept);
    return code;
}

PyObject *str_of(const uint8_t *bytes, size_t length)
{
    return PyUnicode_DecodeUTF8((const char *)bytes, (Py_ssize_t)length, NULL);
}

PyObject *str_with_halves(const uint8_t *bytes, size_t length)
{
    return PyUnicode_DecodeUTF8((const char *)bytes, (Py_ssize_t)length, "surrogatepass");
}

PyObject *str_of_result(const Result *result, PyObject *text, const Text *view)
{
    return is_as_written(result, view) ? exact_text(text) : str_of(result->bytes, result->length);
}

PyObject *str_of_kept(pylock_text *kept)
{
    Result result;
    int32_t code = result_of_kept(kept, &result);
    PyObject *text = NULL;
    if (code == PYLOCK_OK)
        text = str_of(result.bytes, result.length);
    else
        PyErr_NoMemory();
    result_done(&result);
    return text;
}

/* ---- records ---- */

static uint8_t unescaped(uint8_t letter)
{
    switch (letter) {
    case 't': return '\t';
    case 'n': return '\n';
    case 'r': return '\r';
    default: return letter;
    }
}

static PyObject *field_with_escapes(const uint8_t *field, size_t length)
{
    uint8_t *text = PyMem_Malloc(length);
    if (text == NULL) return PyErr_NoMemory();
    size_t written = 0;
    for (size_t place = 0; place < length; place++) {
        bool is_escape = field[place] == '\\' && place + 1 < length;
        text[written++] = is_escape ? unescaped(field[++place]) : field[place];
    }
    PyObject *result = str_of(text, written);
    PyMem_Free(text);
    return result;
}

PyObject *next_field(Record *record)
{
    const uint8_t *field = record->rest.bytes, *tab = memchr(field, '\t', record->rest.length);
    size_t length = tab == NULL ? record->rest.length : (size_t)(tab - field);
    record->has_more = tab != NULL;
    record->rest.bytes += length + record->has_more;
    record->rest.length -= length + record->has_more;
    if (length == 1 && *field == '-') return hold(Py_None);
    bool has_escapes = memchr(field, '\\', length) != NULL;
    return has_escapes ? field_with_escapes(field, length) : str_of(field, length);
}

PyObject *fields_of(const uint8_t *bytes, size_t length)
{
    Record record = {{bytes, length, NULL}, true};
    Py_ssize_t count = 1;
    for (size_t place = 0; place < length; place++) count += bytes[place] == '\t';
    PyObject *fields = PyTuple_New(count);
    for (Py_ssize_t index = 0; fields != NULL && index < count; index++) {
        PyObject *field = next_field(&record);
        if (field == NULL || PyTuple_SetItem(fields, index, field) < 0) Py_CLEAR(fields);
    }
    return fields;
}

PyObject *record_of_text(State *state, RecordCall call, PyObject *text, const char *kind, RecordReader reader)
{
    Text view;
    Result result;
    pylock_text kept = {0};
    PyObject *read = NULL;
    if (!text_of(text, &view)) return NULL;
    result.bytes = result.near;
    int32_t code = call(view.bytes, view.length, &kept);
    text_done(&view);
    if (code == PYLOCK_OK) code = result_of_kept(&kept, &result);
    Record record = {{result.bytes, result.length, NULL}, true};
    if (code == PYLOCK_OK)
        read = reader(state, &record);
    else
        raise_refusal(state, code, text, kind);
    result_done(&result);
    return read;
}

/* ---- answers ---- */

PyObject *told_answer(int32_t answer, PyObject *witness)
{
    PyObject *number = witness == NULL ? NULL : PyLong_FromLong(answer);
    PyObject *told = number == NULL ? NULL : PyTuple_Pack(2, number, witness);
    Py_XDECREF(number);
    Py_XDECREF(witness);
    return told;
}

/* ---- refusals ---- */

static void raise_made(PyObject *exception)
{
    if (exception == NULL) return;
    PyErr_SetObject((PyObject *)Py_TYPE(exception), exception);
    Py_DECREF(exception);
}

/* The codes that have one exception, whatever the text is; and any, where no Python layer is there. */
static bool raise_common(PyObject *maker, int32_t code)
{
    if (code == PYLOCK_MEMORY)
        PyErr_NoMemory();
    else if (code == PYLOCK_EMPTY)
        PyErr_SetString(PyExc_ValueError, "pylock: the object was closed");
    else if (maker == NULL)
        PyErr_Format(PyExc_RuntimeError, "pylock: the library answered %d", (int)code);
    else
        return false;
    return true;
}

/* Whether the Python layer told what an exception is made of: a tuple that begins with its class. */
static bool is_made_of(PyObject *told)
{
    return PyTuple_Check(told) && PyTuple_Size(told) > 0 && PyExceptionClass_Check(PyTuple_GetItem(told, 0));
}

static bool is_kind(const char *kind, const char *word)
{
    return kind[0] == word[0] && strlen(kind) == strlen(word) && memcmp(kind, word, strlen(word)) == 0;
}

/* Where the refusal of a code is kept: it has one, but another one of these kinds of texts. */
static PyObject **place_of_refusal(State *state, int32_t code, const char *kind)
{
    bool is_own = is_kind(kind, "name") || is_kind(kind, "order");
    return &state->refusals[(size_t)(is_own ? code + MOST_REFUSALS / 2 : code) % MOST_REFUSALS];
}

/* What the exception of a code is made of, which the Python layer tells and is kept; NULL where that is the exception itself, which
 * is raised. */
static PyObject *told_refusal(State *state, int32_t code, PyObject *text, const char *kind)
{
    PyObject **place = place_of_refusal(state, code, kind);
    if (*place != NULL) return hold(*place);
    /* what it runs may give the module another one */
    PyObject *refuse = hold(state->refuse), *told = PyObject_CallFunction(refuse, "iOs", (int)code, text, kind);
    bool is_kept = told != NULL && is_made_of(told);
    if (is_kept && refuse == state->refuse && *place == NULL) *place = hold(told);
    let_go(refuse);
    if (is_kept) return told;
    raise_made(told);
    return NULL;
}

/* The exception of what was told and one or two texts, without the `__init__` of its class, which does no more: these are its
 * arguments, of which the class makes its message and its attributes when it is asked for them. */
static PyObject *refusal_of(PyObject *told, PyObject *text, PyObject *other)
{
    PyTypeObject *error = (PyTypeObject *)PyTuple_GetItem(told, 0);
    newfunc make = (newfunc)PyType_GetSlot(error, Py_tp_new);
    PyObject *arguments = make == NULL ? NULL : PyTuple_Pack(other == NULL ? 2 : 3, told, text, other);
    PyObject *exception = arguments == NULL ? NULL : make(error, arguments, NULL);
    Py_XDECREF(arguments);
    return exception;
}

void raise_unlike(State *state, int32_t code, PyObject *text, PyObject *other, const char *kind)
{
    if (raise_common(state->refuse, code)) return;
    PyObject *told = told_refusal(state, code, text, kind);
    if (told == NULL) return;
    raise_made(refusal_of(told, text, other));
    Py_DECREF(told);
}

void raise_refusal(State *state, int32_t code, PyObject *text, const char *kind)
{
    raise_unlike(state, code, text, NULL, kind);
}

void raise_input(State *state, int32_t code, pylock_text *words, PyObject *lock, PyObject *environment, bool json)
{
    if (raise_common(state->refuse_input, code)) {
        pylock_text_free(words);
        return;
    }
    PyObject *text = str_of_kept(words);
    if (text == NULL) return;
    PyObject *flag = json ? Py_True : Py_False, *maker = hold(state->refuse_input);
    raise_made(PyObject_CallFunction(maker, "iOOOO", (int)code, text, lock, environment, flag));
    let_go(maker);
    Py_DECREF(text);
}

/* ---- arguments ---- */

bool check_count(const char *name, Py_ssize_t count, Py_ssize_t wanted)
{
    if (count == wanted) return true;
    PyErr_Format(PyExc_TypeError, "%s() takes %zd arguments, not %zd", name, wanted, count);
    return false;
}

PyObject *own_dict(PyObject *dict)
{
    PyObject *own = PyDict_New();
    Walk walk = walk_over(dict);
    while (own != NULL && walk_on(&walk))
        if (PyDict_SetItem(own, walk.key, walk.member) < 0) Py_CLEAR(own);
    end_walk(&walk);
    if (PyErr_Occurred()) Py_CLEAR(own);
    return own;
}

bool take_arguments(PyObject *arguments, PyObject *named, const char *format, char **words, PyObject **taken)
{
    PyObject *own = named == NULL ? NULL : own_dict(named);
    if (named != NULL && own == NULL) return false;
    for (int index = 0; index < MOST_TAKEN; index++) taken[index] = NULL;
    bool is_good = PyArg_ParseTupleAndKeywords(arguments, own, format, words, &taken[0], &taken[1], &taken[2]) != 0;
    for (int index = 0; index < MOST_TAKEN; index++) taken[index] = is_good ? hold(taken[index]) : NULL;
    Py_XDECREF(own);
    return is_good;
}

void let_arguments_go(PyObject **taken)
{
    for (int index = 0; index < MOST_TAKEN; index++) Py_CLEAR(taken[index]);
}

/* ---- dicts ---- */

Walk walk_over(PyObject *dict)
{
    Py_ssize_t size = PyDict_Size(dict);
    return (Walk){.dict = dict, .size = size, .left = size};
}

bool walk_on(Walk *walk)
{
    PyObject *key, *member;
    end_walk(walk);
    if (PyDict_Size(walk->dict) != walk->size) {
        PyErr_SetString(PyExc_RuntimeError, "dictionary changed size during iteration");
        return false;
    }
    if (!PyDict_Next(walk->dict, &walk->place, &key, &member)) return false;
    if (walk->left-- == 0) {
        PyErr_SetString(PyExc_RuntimeError, "dictionary keys changed during iteration");
        return false;
    }
    walk->key = hold(key);
    walk->member = hold(member);
    return true;
}

void end_walk(Walk *walk)
{
    Py_CLEAR(walk->key);
    Py_CLEAR(walk->member);
}

/* ---- one argument ---- */

PyObject *one_of_more(const Signature *signature, PyObject *const *arguments, Py_ssize_t count, PyObject *names, bool *flag)
{
    PyObject *one = count == 1 ? arguments[0] : NULL;
    Py_ssize_t named = names == NULL ? 0 : PyTuple_Size(names);
    bool is_good = count <= 1;
    for (Py_ssize_t index = 0; index < named && is_good; index++) {
        PyObject *name = PyTuple_GetItem(names, index), *value = arguments[count + index];
        if (one == NULL && PyUnicode_CompareWithASCIIString(name, signature->one) == 0) {
            one = value;
        } else if (signature->flag != NULL && PyUnicode_CompareWithASCIIString(name, signature->flag) == 0) {
            int truth = PyObject_IsTrue(value);
            if (truth < 0) return NULL;
            *flag = truth;
        } else
            is_good = false;
    }
    if (is_good && one != NULL) return one;
    PyErr_Format(PyExc_TypeError, "%s() takes the argument '%s'%s%s", signature->name, signature->one,
                 signature->flag == NULL ? "" : " and by its name alone ", signature->flag == NULL ? "" : signature->flag);
    return NULL;
}
