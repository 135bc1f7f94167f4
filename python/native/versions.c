/* Versions: a text, its place in the order, and its parts. */
#include "native.h"

#include <stddef.h>
#include <structmember.h>

enum { KEY_ROOM = 16, FAR_KEY = KEY_ROOM + 1, USUAL_KEY = 64, MOST_OF_BASE = 0xffff };

typedef struct {
    PyObject_HEAD
    State *state;
    /* as it was given */
    PyObject *text;
    /* the normal form: NULL until it was asked for */
    PyObject *normal;
    /* what is read as members, which Python does without a call: NULL as long as there is no text */
    PyObject *epoch, *release, *pre, *post, *dev, *local, *is_prerelease;
    /* the order key: in `near`, or where it is longer in memory of its own */
    union {
        uint8_t near[KEY_ROOM];
        struct {
            uint8_t *bytes;
            size_t length;
        } far;
    } key;
    /* -1 until it was asked for; else 30 bits */
    int32_t hash;
    /* the length of the normal form's epoch and release, or 0 where it is to be asked for */
    uint16_t base;
    /* the length of a key in `near`, or FAR_KEY; 0 until there is one, of a text that the library gave */
    uint8_t key_length;
    /* whether the text is its normal form */
    bool is_normal;
} Version;

/* The parts of a version as Python has them. */
typedef struct {
    PyObject *epoch, *release, *pre, *post, *dev, *local;
    size_t base;
} Parts;

/* ---- the key ---- */

PyObject *version_text(PyObject *self)
{
    PyObject *text = ((Version *)self)->text;
    if (text == NULL) PyErr_SetString(PyExc_ValueError, "pylock: the version has no text yet");
    return text;
}

/* Gives a version a key, whose bytes lie elsewhere: false without memory. */
static bool keep_key(Version *version, const uint8_t *bytes, size_t length)
{
    uint8_t *own = length <= KEY_ROOM ? version->key.near : PyMem_Malloc(length);
    if (own == NULL) return false;
    memcpy(own, bytes, length);
    if (length > KEY_ROOM) {
        version->key.far.bytes = own;
        version->key.far.length = length;
    }
    version->key_length = length <= KEY_ROOM ? (uint8_t)length : FAR_KEY;
    return true;
}

/* Finds the key of a version that has none, and the kind. */
static int32_t find_key(Version *version, const Text *text, pylock_version_kind *kind)
{
    uint8_t near[USUAL_KEY];
    Result result;
    size_t length = 0;
    int32_t code = pylock_version_read(text->bytes, text->length, near, USUAL_KEY, &length, kind);
    if (code == PYLOCK_OK) return keep_key(version, near, length) ? code : PYLOCK_MEMORY;
    if (code != PYLOCK_ROOM) return code;
    /* the kind is told already */
    code = result_of_text(pylock_version_key, text, &result);
    if (code == PYLOCK_OK && !keep_key(version, result.bytes, result.length)) code = PYLOCK_MEMORY;
    result_done(&result);
    return code;
}

static inline const uint8_t *key_of(const Version *version, size_t *length)
{
    bool is_far = version->key_length == FAR_KEY;
    *length = is_far ? version->key.far.length : version->key_length;
    return is_far ? version->key.far.bytes : version->key.near;
}

static bool read_key(Version *version)
{
    Text view;
    pylock_version_kind kind;
    PyObject *text = version_text((PyObject *)version);
    if (text == NULL || !text_of(text, &view)) return false;
    /* what else ran meanwhile may have found it too */
    int32_t code = version->key_length > 0 ? PYLOCK_OK : find_key(version, &view, &kind);
    text_done(&view);
    if (code != PYLOCK_OK) raise_refusal(version->state, code, text, "version");
    return code == PYLOCK_OK;
}

/* Whether the version has its key; else an exception says why not. */
static inline bool has_key(Version *version)
{
    return version->key_length > 0 || read_key(version);
}

/* ---- the parts ---- */

typedef struct {
    const char *letters;
    size_t length;
} Word;

#define WORD(letters) {letters, sizeof letters - 1}

/* The letters of pre-releases. */
enum { PRES = 3 };
static const Word letters_of_pre[PRES] = {WORD("a"), WORD("b"), WORD("rc")};

/* of a release of so many numbers there is room here */
enum { RELEASE_ROOM = 16, WORDS_OF_NUMBER = 2 };

static PyObject *number_of(uint64_t low, uint64_t high)
{
    char digits[2 * 16 + 1];
    if (high == 0) return PyLong_FromUnsignedLongLong(low);
    PyOS_snprintf(digits, sizeof digits, "%llx%016llx", (unsigned long long)high, (unsigned long long)low);
    return PyLong_FromString(digits, NULL, 16);
}

static PyObject *number_or_none(bool has_number, uint64_t low, uint64_t high)
{
    return has_number ? number_of(low, high) : hold(Py_None);
}

/* The texts of these letters, which all versions share. */
static PyObject *made_letters(void)
{
    PyObject *letters = PyTuple_New(PRES);
    for (int place = 0; letters != NULL && place < PRES; place++) {
        PyObject *letter = PyUnicode_InternFromString(letters_of_pre[place].letters);
        if (letter == NULL || PyTuple_SetItem(letters, place, letter) < 0) Py_CLEAR(letters);
    }
    return letters;
}

static PyObject *letter_of(State *state, uint8_t pre)
{
    int place = pre == 'a' ? 0 : pre == 'b' ? 1 : 2;
    PyObject *letters = state->letters;
    return letters == NULL ? PyUnicode_InternFromString(letters_of_pre[place].letters) : hold(PyTuple_GetItem(letters, place));
}

static PyObject *prerelease_of(State *state, const pylock_version_parts *parts)
{
    if (parts->pre == 0) return hold(Py_None);
    PyObject *letter = letter_of(state, parts->pre);
    PyObject *number = letter == NULL ? NULL : number_of(parts->pre_low, parts->pre_high);
    PyObject *prerelease = number == NULL ? NULL : PyTuple_Pack(2, letter, number);
    Py_XDECREF(letter);
    Py_XDECREF(number);
    return prerelease;
}

static PyObject *release_of(const uint64_t *words, size_t count)
{
    PyObject *release = PyTuple_New((Py_ssize_t)(count / WORDS_OF_NUMBER));
    for (size_t at = 0; release != NULL && at < count; at += WORDS_OF_NUMBER) {
        PyObject *number = number_of(words[at], words[at + 1]);
        if (number == NULL || PyTuple_SetItem(release, (Py_ssize_t)(at / WORDS_OF_NUMBER), number) < 0) Py_CLEAR(release);
    }
    return release;
}

static void let_parts_go(Parts *parts)
{
    Py_CLEAR(parts->epoch);
    Py_CLEAR(parts->release);
    Py_CLEAR(parts->pre);
    Py_CLEAR(parts->post);
    Py_CLEAR(parts->dev);
    Py_CLEAR(parts->local);
}

static int32_t with_zeros(const uint8_t *text, size_t length, uint8_t *out, size_t room, size_t *needed)
{
    return pylock_version_normal(text, length, false, out, room, needed);
}

static int32_t without_zeros(const uint8_t *text, size_t length, uint8_t *out, size_t room, size_t *needed)
{
    return pylock_version_normal(text, length, true, out, room, needed);
}

/* The local part stands behind its sign at the end of the normal form. */
static PyObject *local_in(const uint8_t *normal, size_t length, size_t public_end)
{
    return public_end == length ? hold(Py_None) : str_of(normal + public_end + 1, length - public_end - 1);
}

static PyObject *local_of(const Text *text, bool is_normal, size_t public_end)
{
    Result normal;
    PyObject *local = NULL;
    if (is_normal) return local_in(text->bytes, text->length, public_end);
    if (memchr(text->bytes, '+', text->length) == NULL) return hold(Py_None);
    int32_t code = result_of_text(with_zeros, text, &normal);
    if (code != PYLOCK_OK)
        PyErr_NoMemory();
    else
        local = local_in(normal.bytes, normal.length, public_end);
    result_done(&normal);
    return local;
}

/* Python's own of the library's parts of a text, which is the normal form or isn't: false with an exception. */
static bool made_parts(State *state, const pylock_version_parts *read, const uint64_t *words, size_t count, const Text *text,
                       bool is_normal, Parts *parts)
{
    parts->base = read->base;
    if ((parts->epoch = number_of(read->epoch_low, read->epoch_high)) != NULL && (parts->release = release_of(words, count)) != NULL &&
        (parts->pre = prerelease_of(state, read)) != NULL &&
        (parts->post = number_or_none(read->has_post, read->post_low, read->post_high)) != NULL &&
        (parts->dev = number_or_none(read->has_dev, read->dev_low, read->dev_high)) != NULL &&
        (parts->local = local_of(text, is_normal, read->public_end)) != NULL)
        return true;
    let_parts_go(parts);
    return false;
}

/* What the library tells of a text in one call. */
typedef struct {
    uint8_t *key;
    uint64_t *words;
    size_t key_length, count;
    pylock_version_kind kind;
    pylock_version_parts parts;
    uint8_t near_key[USUAL_KEY];
    uint64_t near_words[RELEASE_ROOM * WORDS_OF_NUMBER];
} Whole;

static void whole_done(const Whole *whole)
{
    if (whole->key != whole->near_key) PyMem_Free(whole->key);
    if (whole->words != whole->near_words) PyMem_Free(whole->words);
}

static int32_t ask_whole(const Text *text, Whole *whole, size_t key_room, size_t room)
{
    return pylock_version_whole(text->bytes, text->length, whole->key, key_room, &whole->key_length, &whole->kind, &whole->parts,
                                whole->words, room, &whole->count);
}

/* Fills it, with room for long ones where these are: `whole_done` gives that back. */
static int32_t read_whole(const Text *text, Whole *whole)
{
    whole->key = whole->near_key;
    whole->words = whole->near_words;
    int32_t code = ask_whole(text, whole, USUAL_KEY, RELEASE_ROOM * WORDS_OF_NUMBER);
    if (code != PYLOCK_ROOM) return code;
    size_t key_room = whole->key_length, room = whole->count;
    whole->key = PyMem_Malloc(key_room);
    whole->words = PyMem_Malloc(room * sizeof *whole->words);
    return whole->key == NULL || whole->words == NULL ? PYLOCK_MEMORY : ask_whole(text, whole, key_room, room);
}

/* Gives a version its parts, which it takes over. */
static void set_parts(Version *version, Parts *parts, bool is_prerelease)
{
    version->epoch = parts->epoch;
    version->release = parts->release;
    version->pre = parts->pre;
    version->post = parts->post;
    version->dev = parts->dev;
    version->local = parts->local;
    version->base = parts->base > MOST_OF_BASE ? 0 : (uint16_t)parts->base;
    version->is_prerelease = hold(is_prerelease ? Py_True : Py_False);
}

/* ---- making ---- */

static Version *empty_version(State *state, PyTypeObject *type)
{
    Version *version = (Version *)new_object_of(state, type, &state->spare_versions, sizeof(Version));
    if (version != NULL) version->hash = -1;
    return version;
}

static bool no_change(void)
{
    PyErr_SetString(PyExc_TypeError, "a version can't be changed");
    return false;
}

/* Gives a version what was found of its text, which nothing else gave it meanwhile. */
static void set_found(Version *version, PyObject *text, const pylock_version_kind *kind, Parts *parts)
{
    version->text = hold(text);
    version->is_normal = kind->is_normal;
    set_parts(version, parts, kind->is_prerelease);
}

/* Finds what a version is by its text: false with the code of a refusal, or with an exception. */
static bool find_whole(Version *version, PyObject *text, const Text *view, int32_t *code)
{
    Whole whole;
    Parts parts = {.epoch = NULL};
    *code = read_whole(view, &whole);
    bool is_good = *code == PYLOCK_OK &&
        made_parts(version->state, &whole.parts, whole.words, whole.count, view, whole.kind.is_normal, &parts);
    /* finalizers may have run meanwhile; from here on nothing does but the library */
    is_good = is_good && version->text == NULL;
    if (is_good && !keep_key(version, whole.key, whole.key_length)) {
        is_good = false;
        *code = PYLOCK_MEMORY;
    }
    if (is_good)
        set_found(version, text, &whole.kind, &parts);
    else
        let_parts_go(&parts);
    whole_done(&whole);
    return is_good;
}

/* Gives a version that has no text this one, as `given` is read, and what it is by it: whole, or not at all. */
static bool set_text(Version *version, PyObject *text, const Text *view, PyObject *given)
{
    int32_t code;
    if (find_whole(version, text, view, &code)) return true;
    if (version->text != NULL)
        no_change();
    else if (code != PYLOCK_OK)
        raise_refusal(version->state, code, given, "version");
    return false;
}

/* Reads the text into a version that has none. */
static bool read_version(Version *version, PyObject *given)
{
    Text view;
    if (!text_of(given, &view)) return false;
    PyObject *text = exact_text(given);
    bool is_good = text != NULL && set_text(version, text, &view, given);
    text_done(&view);
    Py_XDECREF(text);
    return is_good;
}

PyObject *version_of_text(State *state, PyTypeObject *type, PyObject *text)
{
    Version *version = empty_version(state, type);
    if (version != NULL && !read_version(version, text)) Py_CLEAR(version);
    return (PyObject *)version;
}

/* Gives a new version a normal form and its parts, without its key: false where its release is long, or with an exception. */
static bool set_normal_text(Version *version, PyObject *text, const Text *view)
{
    pylock_version_parts read;
    uint64_t words[RELEASE_ROOM * WORDS_OF_NUMBER];
    size_t count = 0;
    Parts parts = {.epoch = NULL};
    int32_t code = pylock_version_split(view->bytes, view->length, &read, words, RELEASE_ROOM * WORDS_OF_NUMBER, &count);
    if (code != PYLOCK_OK || !made_parts(version->state, &read, words, count, view, true, &parts)) return false;
    version->text = hold(text);
    version->is_normal = true;
    set_parts(version, &parts, read.pre != 0 || read.has_dev);
    return true;
}

/* The version of a normal form, whose bytes are those of the view. */
static PyObject *version_of_view(State *state, PyObject *text, const Text *view)
{
    Version *version = empty_version(state, state->version_class);
    if (version != NULL && !set_normal_text(version, text, view) && (PyErr_Occurred() || !set_text(version, text, view, text)))
        Py_CLEAR(version);
    return (PyObject *)version;
}

PyObject *version_of_normal(State *state, PyObject *text)
{
    Text view;
    if (!text_of(text, &view)) return NULL;
    PyObject *version = version_of_view(state, text, &view);
    text_done(&view);
    return version;
}

/* The text of a call, which is held: NULL with an exception. */
static inline PyObject *given_version(PyObject *arguments, PyObject *named)
{
    static char *words[] = {"version", NULL};
    PyObject *taken[MOST_TAKEN];
    if (named == NULL && PyTuple_Size(arguments) == 1) return hold(PyTuple_GetItem(arguments, 0));
    return take_arguments(arguments, named, "O:Version", words, taken) ? taken[0] : NULL;
}

/* A version that has a text is the one of this text, which its maker has read already. */
static bool is_of_text(Version *version, PyObject *text)
{
    if (text == version->text || (PyUnicode_Check(text) && PyUnicode_Compare(text, version->text) == 0)) return true;
    return no_change();
}

/* A class that is made from this one may have an __init__ of its own, and call that of its base with the text. */
static int version_init(PyObject *self, PyObject *arguments, PyObject *named)
{
    Version *version = (Version *)self;
    /* as it was made of it already */
    if (named == NULL && version->text != NULL && PyTuple_Size(arguments) == 1 && PyTuple_GetItem(arguments, 0) == version->text) return 0;
    PyObject *text = given_version(arguments, named);
    if (text == NULL) return -1;
    bool is_good = version->text == NULL ? read_version(version, text) : is_of_text(version, text);
    let_go(text);
    return is_good ? 0 : -1;
}

static PyObject *version_new(PyTypeObject *type, PyObject *arguments, PyObject *named)
{
    State *state = state_of_type(type);
    if (state == NULL) return NULL;
    Py_ssize_t count = named == NULL ? PyTuple_Size(arguments) : -1;
    /* without an argument it is to be read by a pickle, or its __init__ refuses it */
    if (count == 0 || PyType_GetSlot(type, Py_tp_init) != (void *)version_init) return (PyObject *)empty_version(state, type);
    PyObject *text = count == 1 ? hold(PyTuple_GetItem(arguments, 0)) : given_version(arguments, named);
    PyObject *version = text == NULL ? NULL : version_of_text(state, type, text);
    let_go(text);
    return version;
}

static int version_traverse(PyObject *self, visitproc visit, void *arg)
{
    Version *version = (Version *)self;
    Py_VISIT(version->release);
    Py_VISIT(version->pre);
    return visit_type_in(self, visit, arg, version_traverse);
}

static void version_dealloc(PyObject *self)
{
    Version *version = (Version *)self;
    PyObject_GC_UnTrack(self);
    Py_XDECREF(version->text);
    Py_XDECREF(version->normal);
    Py_XDECREF(version->epoch);
    Py_XDECREF(version->release);
    Py_XDECREF(version->pre);
    Py_XDECREF(version->post);
    Py_XDECREF(version->dev);
    Py_XDECREF(version->local);
    Py_XDECREF(version->is_prerelease);
    if (version->key_length == FAR_KEY) PyMem_Free(version->key.far.bytes);
    leave_object(self, &version->state->spare_versions);
}

/* ---- order ---- */

static int order_of(const Version *left, const Version *right)
{
    size_t length, other_length;
    const uint8_t *key = key_of(left, &length), *other_key = key_of(right, &other_length);
    int order = memcmp(key, other_key, length < other_length ? length : other_length);
    if (order != 0) return order;
    return (length > other_length) - (length < other_length);
}

static PyObject *version_compare(PyObject *left, PyObject *right, int how)
{
    bool told = false;
    if (Py_TYPE(left) != Py_TYPE(right) && !is_of(right, ((Version *)left)->state->version)) {
        Py_INCREF(Py_NotImplemented);
        return Py_NotImplemented;
    }
    if (!has_key((Version *)left) || !has_key((Version *)right)) return NULL;
    int order = order_of((Version *)left, (Version *)right);
    switch (how) {
    case Py_LT: told = order < 0; break;
    case Py_LE: told = order <= 0; break;
    case Py_EQ: told = order == 0; break;
    case Py_NE: told = order != 0; break;
    case Py_GT: told = order > 0; break;
    case Py_GE: told = order >= 0; break;
    }
    return PyBool_FromLong(told);
}

/* The key as Python's bytes: NULL with an exception. */
static PyObject *key_bytes(Version *version)
{
    size_t length;
    if (!has_key(version)) return NULL;
    const uint8_t *key = key_of(version, &length);
    return PyBytes_FromStringAndSize((const char *)key, (Py_ssize_t)length);
}

static Py_hash_t version_hash(PyObject *self)
{
    Version *version = (Version *)self;
    if (version->hash != -1) return version->hash;
    /* Python mixes bytes with a secret: who chooses versions can't make them fall together */
    PyObject *key = key_bytes(version);
    if (key == NULL) return -1;
    version->hash = (int32_t)short_hash(key);
    Py_DECREF(key);
    return version->hash;
}

/* ---- the normal form ---- */

PyObject *canonical_version(State *state, PyObject *item, bool strip)
{
    PyObject *text = given_text(state, item), *canonical = NULL;
    Text view;
    Result result;
    if (text == NULL || !text_of(text, &view)) return NULL;
    int32_t code = result_of_text(strip ? without_zeros : with_zeros, &view, &result);
    if (code == PYLOCK_OK)
        canonical = str_of_result(&result, text, &view);
    else if (is_no_version(code))
        canonical = hold(item);
    else
        raise_refusal(state, code, text, "version");
    result_done(&result);
    text_done(&view);
    return canonical;
}

PyObject *version_normal(PyObject *self)
{
    Version *version = (Version *)self;
    if (version->normal == NULL) {
        if (version_text(self) == NULL) return NULL;
        PyObject *normal = version->is_normal ? hold(version->text) : canonical_version(version->state, self, false);
        if (normal == NULL) return NULL;
        /* what else ran meanwhile may have found it too */
        if (version->normal == NULL)
            version->normal = normal;
        else
            Py_DECREF(normal);
    }
    return hold(version->normal);
}

/* ---- what is asked of a version ---- */

/* Whether the version has its parts; else an exception says so, as for a member that isn't there. */
static inline bool has_parts(const Version *version)
{
    if (version->release == NULL) PyErr_SetString(PyExc_AttributeError, "pylock: the version has no text yet");
    return version->release != NULL;
}

static PyObject *get_number_of_release(PyObject *self, void *place)
{
    Version *version = (Version *)self;
    if (!has_parts(version)) return NULL;
    Py_ssize_t index = (Py_ssize_t)(intptr_t)place;
    return index < PyTuple_Size(version->release) ? hold(PyTuple_GetItem(version->release, index)) : PyLong_FromLong(0);
}

/* Whether there is the part at this place of the object. */
static PyObject *get_whether(PyObject *self, void *place)
{
    if (!has_parts((Version *)self)) return NULL;
    return hold(*(PyObject *const *)((const char *)self + (intptr_t)place) == Py_None ? Py_False : Py_True);
}

/* The first letters of the normal form, which is ASCII. */
static PyObject *beginning_of(Version *version, Py_ssize_t length)
{
    PyObject *normal = version_normal((PyObject *)version);
    PyObject *beginning = normal == NULL ? NULL : PyUnicode_Substring(normal, 0, length);
    Py_XDECREF(normal);
    return beginning;
}

static PyObject *get_public(PyObject *self, void *closure)
{
    Version *version = (Version *)self;
    (void)closure;
    if (!has_parts(version)) return NULL;
    PyObject *normal = version_normal(self);
    if (normal == NULL || version->local == Py_None) return normal;
    /* behind it stand a sign and the local part */
    Py_ssize_t length = PyUnicode_GetLength(normal) - PyUnicode_GetLength(version->local) - 1;
    Py_DECREF(normal);
    return beginning_of(version, length);
}

/* The length of epoch and release, or 0 with an exception: of a text that is too long for it to be kept the library is asked. */
static size_t base_of(Version *version)
{
    Text view;
    pylock_version_parts parts = {0};
    size_t count;
    if (version->base > 0) return version->base;
    if (!text_of(version->text, &view)) return 0;
    int32_t code = pylock_version_split(view.bytes, view.length, &parts, NULL, 0, &count);
    text_done(&view);
    if (code == PYLOCK_ROOM) return parts.base;
    raise_refusal(version->state, code, version->text, "version");
    return 0;
}

static PyObject *get_base(PyObject *self, void *closure)
{
    Version *version = (Version *)self;
    (void)closure;
    if (!has_parts(version)) return NULL;
    bool is_all = version->pre == Py_None && version->post == Py_None && version->dev == Py_None && version->local == Py_None;
    if (is_all) return version_normal(self);
    size_t base = base_of(version);
    return base == 0 ? NULL : beginning_of(version, (Py_ssize_t)base);
}

static PyObject *get_key(PyObject *self, void *closure)
{
    (void)closure;
    return key_bytes((Version *)self);
}

static PyObject *get_given(PyObject *self, void *closure)
{
    (void)closure;
    return hold(version_text(self));
}

/* ---- versions of parts ---- */

/* The places of the parts, in the order in which they are told, and their names. */
enum { EPOCH, RELEASE, PRE, POST, DEV, LOCAL, PARTS };
static const Word names_of_parts[PARTS] = {WORD("epoch"), WORD("release"), WORD("pre"), WORD("post"), WORD("dev"), WORD("local")};

/* Which of the words a text is: as many as there are where it is none, or with an exception. */
static int place_of_word(PyObject *text, const Word *words, int count)
{
    Text view;
    int place = 0;
    if (!text_of(text, &view)) return count;
    while (place < count && (words[place].length != view.length || memcmp(words[place].letters, view.bytes, view.length) != 0)) place++;
    text_done(&view);
    return place;
}

enum { LONGEST_MADE = 256 };

/* A text that is written of parts. */
typedef struct {
    char text[LONGEST_MADE];
    size_t length;
} Made;

static inline bool add_letters(Made *made, const char *letters, size_t length)
{
    if (length > LONGEST_MADE - made->length) return false;
    memcpy(made->text + made->length, letters, length);
    made->length += length;
    return true;
}

/* Writes a number, which is an exact int and not a great one. */
static bool add_number(Made *made, PyObject *number)
{
    char digits[MOST_OF_DIGITS], *end = digits + sizeof digits;
    if (!PyLong_CheckExact(number)) return false;
    long long value = PyLong_AsLongLong(number);
    if (value < 0) {
        PyErr_Clear();
        return false;
    }
    char *begin = digits_before(end, (uint64_t)value);
    return add_letters(made, begin, (size_t)(end - begin));
}

static bool add_release(Made *made, PyObject *release)
{
    if (!PyTuple_CheckExact(release) || PyTuple_Size(release) == 0) return false;
    Py_ssize_t count = PyTuple_Size(release);
    for (Py_ssize_t index = 0; index < count; index++)
        if ((index > 0 && !add_letters(made, ".", 1)) || !add_number(made, PyTuple_GetItem(release, index))) return false;
    return true;
}

static bool add_pre(Made *made, PyObject *pre)
{
    if (!PyTuple_CheckExact(pre) || PyTuple_Size(pre) != 2 || !PyUnicode_CheckExact(PyTuple_GetItem(pre, 0))) return false;
    int place = place_of_word(PyTuple_GetItem(pre, 0), letters_of_pre, PRES);
    return place < PRES && add_letters(made, letters_of_pre[place].letters, letters_of_pre[place].length) &&
           add_number(made, PyTuple_GetItem(pre, 1));
}

/* Writes a local part of small letters, digits and dots. */
static bool add_local(Made *made, PyObject *local)
{
    Text view;
    if (!PyUnicode_CheckExact(local) || !text_of(local, &view)) return false;
    bool is_plain = view.length > 0 && add_letters(made, "+", 1);
    for (size_t place = 0; is_plain && place < view.length; place++) {
        uint8_t letter = view.bytes[place];
        is_plain = (letter >= '0' && letter <= '9') || (letter >= 'a' && letter <= 'z') || letter == '.';
    }
    is_plain = is_plain && add_letters(made, (const char *)view.bytes, view.length);
    text_done(&view);
    return is_plain;
}

/* Writes the text of parts as they are in a normal form, as those of a version are. False of others, which the Python layer
 * writes, or refuses. */
static bool made_of_parts(PyObject *const *parts, Made *made)
{
    made->length = 0;
    bool has_epoch = !PyLong_CheckExact(parts[EPOCH]) || PyObject_IsTrue(parts[EPOCH]) != 0;
    return (!has_epoch || (add_number(made, parts[EPOCH]) && add_letters(made, "!", 1))) && add_release(made, parts[RELEASE]) &&
           (parts[PRE] == Py_None || add_pre(made, parts[PRE])) &&
           (parts[POST] == Py_None || (add_letters(made, ".post", 5) && add_number(made, parts[POST]))) &&
           (parts[DEV] == Py_None || (add_letters(made, ".dev", 4) && add_number(made, parts[DEV]))) &&
           (parts[LOCAL] == Py_None || add_local(made, parts[LOCAL]));
}

/* The version of a text that is its normal form, as the library finds. NULL, maybe without an exception, of another text. */
static PyObject *version_if_normal(State *state, PyObject *text, const Text *view)
{
    int32_t code;
    Version *version = empty_version(state, state->version_class);
    if (version != NULL && !(find_whole(version, text, view, &code) && version->is_normal)) Py_CLEAR(version);
    return (PyObject *)version;
}

/* The version of a text that was written of parts, as the library reads it: without a local part the text is a normal form. NULL,
 * maybe without an exception, of one that may have other parts. */
static PyObject *version_of_made(State *state, const Made *made, bool has_local)
{
    Text view = {(const uint8_t *)made->text, made->length, NULL};
    PyObject *text = PyUnicode_DecodeLatin1(made->text, (Py_ssize_t)made->length, NULL);
    if (text == NULL) return NULL;
    PyObject *version = has_local ? version_if_normal(state, text, &view) : version_of_view(state, text, &view);
    Py_DECREF(text);
    return version;
}

/* The version of parts of which the local one is that of a version, and the others are as in a normal form: it has these. */
static PyObject *version_with_local(State *state, PyObject *const *given, const Made *made)
{
    PyObject *text = PyUnicode_DecodeLatin1(made->text, (Py_ssize_t)made->length, NULL);
    Version *version = text == NULL ? NULL : empty_version(state, state->version_class);
    if (version != NULL) {
        Parts parts = {hold(given[EPOCH]), hold(given[RELEASE]), hold(given[PRE]), hold(given[POST]), hold(given[DEV]), hold(given[LOCAL]), 0};
        version->text = hold(text);
        version->is_normal = true;
        set_parts(version, &parts, given[PRE] != Py_None || given[DEV] != Py_None);
    }
    Py_XDECREF(text);
    return (PyObject *)version;
}

/* Puts the parts that are given by their names in their places: false where one has another name. */
static bool take_parts(PyObject *const *values, PyObject *names, PyObject **parts)
{
    Py_ssize_t count = names == NULL ? 0 : PyTuple_Size(names);
    for (Py_ssize_t index = 0; index < count; index++) {
        int place = place_of_word(PyTuple_GetItem(names, index), names_of_parts, PARTS);
        if (place == PARTS) return false;
        parts[place] = values[index];
    }
    return true;
}

/* What the Python layer gives for the call, which it reads itself: of parts that aren't as those of a version are, and of classes
 * that are made from that of versions. */
static PyObject *asked_of_layer(const char *name, PyObject *self, PyObject *const *arguments, Py_ssize_t count, PyObject *names)
{
    PyObject *module = PyImport_ImportModule("pylock._version_parts"), *function = module == NULL ? NULL : PyObject_GetAttrString(module, name);
    PyObject *given = function == NULL ? NULL : PyTuple_New(count + 1), *named = given == NULL ? NULL : PyDict_New(), *answer = NULL;
    bool is_good = named != NULL && PyTuple_SetItem(given, 0, hold(self)) == 0;
    for (Py_ssize_t index = 0; is_good && index < count; index++) is_good = PyTuple_SetItem(given, index + 1, hold(arguments[index])) == 0;
    for (Py_ssize_t index = 0; is_good && names != NULL && index < PyTuple_Size(names); index++)
        is_good = PyDict_SetItem(named, PyTuple_GetItem(names, index), arguments[count + index]) == 0;
    if (is_good) answer = PyObject_Call(function, given, named);
    Py_XDECREF(named);
    Py_XDECREF(given);
    Py_XDECREF(function);
    Py_XDECREF(module);
    return answer;
}

/* from_parts(*, epoch=0, release, pre=None, post=None, dev=None, local=None), of a class */
static PyObject *from_parts(PyObject *self, PyObject *const *arguments, Py_ssize_t count, PyObject *names)
{
    State *state = state_of_type((PyTypeObject *)self);
    Made made;
    if (state == NULL) return NULL;
    PyObject *zero = PyLong_FromLong(0), *version = NULL;
    PyObject *parts[PARTS] = {zero, NULL, Py_None, Py_None, Py_None, Py_None};
    bool is_plain = self == (PyObject *)state->version_class && count == 0;
    if (is_plain && take_parts(arguments, names, parts) && parts[RELEASE] != NULL && made_of_parts(parts, &made))
        version = version_of_made(state, &made, parts[LOCAL] != Py_None);
    Py_XDECREF(zero);
    if (version != NULL || PyErr_Occurred()) return version;
    return asked_of_layer("from_parts", self, arguments, count, names);
}

/* Whether as many parts are there as the version has, so that they may be its own. */
static bool has_such_parts(const Version *version, PyObject *const *parts)
{
    PyObject *its[PARTS] = {version->epoch, version->release, version->pre, version->post, version->dev, version->local};
    bool has = true;
    for (int part = 0; part < PARTS; part++) has = has && (its[part] == Py_None) == (parts[part] == Py_None);
    return has;
}

/* Whether a text that was written is the version's normal form: -1 with an exception. */
static int is_its_text(PyObject *self, const Made *made)
{
    Text view;
    PyObject *normal = version_normal(self);
    if (normal == NULL || !text_of(normal, &view)) {
        Py_XDECREF(normal);
        return -1;
    }
    bool is_it = view.length == made->length && memcmp(view.bytes, made->text, made->length) == 0;
    text_done(&view);
    Py_DECREF(normal);
    return is_it;
}

/* __replace__(**parts) */
static PyObject *version_replace(PyObject *self, PyObject *const *arguments, Py_ssize_t count, PyObject *names)
{
    Version *version = (Version *)self;
    State *state = version->state;
    Made made;
    PyObject *parts[PARTS] = {version->epoch, version->release, version->pre, version->post, version->dev, version->local};
    bool is_plain = Py_TYPE(self) == state->version_class && version->release != NULL && count == 0;
    if (is_plain && take_parts(arguments, names, parts) && made_of_parts(parts, &made)) {
        int is_same = has_such_parts(version, parts) ? is_its_text(self, &made) : 0;
        if (is_same != 0) return is_same < 0 ? NULL : hold(self);
        bool has_local = parts[LOCAL] != Py_None, is_own = has_local && parts[LOCAL] == version->local;
        PyObject *other = is_own ? version_with_local(state, parts, &made) : version_of_made(state, &made, has_local);
        if (other != NULL || PyErr_Occurred()) return other;
    }
    return PyErr_Occurred() ? NULL : asked_of_layer("replaced", self, arguments, count, names);
}

/* A version can't be changed: a copy is the version itself. */
static PyObject *version_copy(PyObject *self, PyObject *memo)
{
    (void)memo;
    return hold(self);
}

/* What a pickle has, which asks this first: the class and the text as it was given; the Python layer tells it of a class of
 * one's own. */
static PyObject *version_reduce_ex(PyObject *self, PyObject *protocol)
{
    PyTypeObject *type = Py_TYPE(self);
    if (type != ((Version *)self)->state->version_class) return usual_reduce(self, protocol);
    PyObject *text = version_text(self), *arguments = text == NULL ? NULL : PyTuple_Pack(1, text);
    PyObject *reduced = arguments == NULL ? NULL : PyTuple_Pack(2, (PyObject *)type, arguments);
    Py_XDECREF(arguments);
    return reduced;
}

#define FROM_PARTS_TEXT                                                                                                  \
    "from_parts($type, /, *, epoch=0, release, pre=None, post=None, dev=None, local=None)\n--\n\n"                      \
    "The version of these parts, as the attributes of their names give them.\n\n"                                       \
    "A part that can't be one is refused as InvalidVersion."
#define REPLACE_TEXT                                                                                                     \
    "__replace__($self, /, **parts)\n--\n\nThe version with other parts, for `copy.replace`: a part that is None is left away."

static PyMethodDef version_methods[] = {
    {"__copy__", version_copy, METH_NOARGS, PyDoc_STR("The version itself.")},
    {"__deepcopy__", version_copy, METH_O, PyDoc_STR("The version itself.")},
    {"__reduce_ex__", version_reduce_ex, METH_O, PyDoc_STR("What a pickle has.")},
    CALL_NAMED_AS("__replace__", version_replace, 0, REPLACE_TEXT),
    CALL_NAMED_AS("from_parts", from_parts, METH_CLASS, FROM_PARTS_TEXT),
    {NULL, NULL, 0, NULL},
};

static PyObject *version_repr(PyObject *self)
{
    return PyUnicode_FromFormat("<Version('%S')>", self);
}

#define AT(place) ((void *)(intptr_t)(place))
#define PART(name, text) {#name, T_OBJECT_EX, offsetof(Version, name), READONLY, PyDoc_STR(text)}

static PyMemberDef version_members[] = {
    PART(epoch, "The epoch."),
    PART(release, "The numbers of the release, with the zeros at its end."),
    PART(pre, "The letter (a, b or rc) and the number of the pre-release, or None."),
    PART(post, "The number of the post-release, or None."),
    PART(dev, "The number of the development release, or None."),
    PART(local, "The local version, or None."),
    PART(is_prerelease, "Whether it is a pre-release or a development release."),
    {NULL, 0, 0, 0, NULL},
};

static PyGetSetDef version_getters[] = {
    {"_given", get_given, NULL, PyDoc_STR("The text as it was given."), NULL},
    {"_key", get_key, NULL, PyDoc_STR("Bytes whose order is the order of versions."), NULL},
    {"public", get_public, NULL, PyDoc_STR("The version without its local version."), NULL},
    {"base_version", get_base, NULL, PyDoc_STR("The epoch and the release."), NULL},
    {"is_postrelease", get_whether, NULL, PyDoc_STR("Whether it is a post-release."), AT(offsetof(Version, post))},
    {"is_devrelease", get_whether, NULL, PyDoc_STR("Whether it is a development release."), AT(offsetof(Version, dev))},
    {"major", get_number_of_release, NULL, PyDoc_STR("The first number of the release."), AT(0)},
    {"minor", get_number_of_release, NULL, PyDoc_STR("The second number of the release, or 0."), AT(1)},
    {"micro", get_number_of_release, NULL, PyDoc_STR("The third number of the release, or 0."), AT(2)},
    {NULL, NULL, NULL, NULL, NULL},
};

static PyType_Slot version_slots[] = {
    {Py_tp_doc, (void *)PyDoc_STR("Version(version)\n--\n\nA version: the base of the class in pylock.version.")},
    {Py_tp_new, version_new},
    {Py_tp_init, version_init},
    {Py_tp_dealloc, version_dealloc},
    {Py_tp_traverse, version_traverse},
    {Py_tp_hash, version_hash},
    {Py_tp_richcompare, version_compare},
    {Py_tp_str, version_normal},
    {Py_tp_repr, version_repr},
    {Py_tp_methods, version_methods},
    {Py_tp_members, version_members},
    {Py_tp_getset, version_getters},
    {0, NULL},
};

static PyType_Spec version_spec = {
    .name = "pylock._native.Version",
    .basicsize = sizeof(Version),
    .flags = Py_TPFLAGS_DEFAULT | Py_TPFLAGS_BASETYPE | Py_TPFLAGS_HAVE_GC,
    .slots = version_slots,
};

/* ---- functions ---- */

static PyObject *record_of(PyObject *module, PyObject *text, TextCall call, const char *kind, PyObject *(*made)(const uint8_t *, size_t))
{
    State *state = state_of(module);
    Text view;
    Result result;
    if (!text_of(text, &view)) return NULL;
    int32_t code = result_of_text(call, &view, &result);
    PyObject *record = NULL;
    if (code == PYLOCK_OK)
        record = made(result.bytes, result.length);
    else
        raise_refusal(state, code, text, kind);
    result_done(&result);
    text_done(&view);
    return record;
}

static PyObject *bytes_object(const uint8_t *bytes, size_t length)
{
    return PyBytes_FromStringAndSize((const char *)bytes, (Py_ssize_t)length);
}

static PyObject *version_key(PyObject *module, PyObject *text)
{
    return record_of(module, text, pylock_version_key, "version", bytes_object);
}

static PyObject *version_record(PyObject *module, PyObject *text)
{
    return record_of(module, text, pylock_version, "version", str_of);
}

/* canonicalize_version(version, *, strip_trailing_zero=True) */
static PyObject *canonicalize_version(PyObject *module, PyObject *const *arguments, Py_ssize_t count, PyObject *names)
{
    static const Signature signature = {"canonicalize_version", "version", "strip_trailing_zero"};
    bool strip = true;
    PyObject *item = one_and_flag(&signature, arguments, count, names, &strip);
    return item == NULL ? NULL : canonical_version(state_of(module), item, strip);
}

/* The words of PEP 440 that aren't normal, and the normal ones. */
static const char *const spellings[][2] = {
    {"alpha", "a"}, {"beta", "b"}, {"c", "rc"}, {"pre", "rc"}, {"preview", "rc"}, {"rev", "post"}, {"r", "post"},
};

enum { LONGEST_WORD = 7 };

/* The normal word for one that is given by its bytes in lower case, or NULL where that is no other one. */
static const char *spelling_of(const char *word)
{
    size_t length = strlen(word) + 1;
    for (size_t index = 0; index < sizeof spellings / sizeof *spellings; index++)
        if (length == strlen(spellings[index][0]) + 1 && memcmp(word, spellings[index][0], length) == 0) return spellings[index][1];
    return NULL;
}

/* Copies a short word of ASCII in lower case: false where the text is another. */
static bool short_word(PyObject *text, char *word)
{
    Text view;
    if (!PyUnicode_CheckExact(text) || !text_of(text, &view)) return false;
    bool is_short = view.length <= LONGEST_WORD;
    size_t length = is_short ? view.length : 0;
    for (size_t place = 0; place < length; place++) {
        uint8_t letter = view.bytes[place];
        is_short = is_short && letter > 0 && letter < 0x80;
        word[place] = (char)(letter >= 'A' && letter <= 'Z' ? letter + ('a' - 'A') : letter);
    }
    word[length] = '\0';
    text_done(&view);
    return is_short;
}

/* normalize_pre(letter): the normal spelling of the word of a pre-release; another word in lower case. */
static PyObject *normalize_pre(PyObject *module, PyObject *letter)
{
    char word[LONGEST_WORD + 1];
    (void)module;
    bool is_short = short_word(letter, word);
    PyObject *small = is_short || PyErr_Occurred() ? NULL : PyObject_CallMethod(letter, "lower", NULL);
    if (!is_short && (small == NULL || !short_word(small, word))) {
        if (PyErr_Occurred()) Py_CLEAR(small);
        return small;
    }
    Py_XDECREF(small);
    const char *normal = spelling_of(word);
    return PyUnicode_FromString(normal == NULL ? word : normal);
}

/* Whether a version is a pre-release: of a class of one's own it is asked, which may say otherwise. */
PyObject *told_phase(State *state, PyObject *version)
{
    if (Py_TYPE(version) == state->version_class || Py_TYPE(version) == state->version)
        return version_text(version) == NULL ? NULL : hold(((Version *)version)->is_prerelease);
    PyObject *told = PyObject_GetAttrString(version, "is_prerelease");
    int is_one = told == NULL ? -1 : PyObject_IsTrue(told);
    Py_XDECREF(told);
    return is_one < 0 ? NULL : PyBool_FromLong(is_one);
}

/* Whether a version, or that of a text, is a pre-release: None of a text that is no version. */
static PyObject *phase(PyObject *module, PyObject *item)
{
    State *state = state_of(module);
    Text view;
    uint8_t room[KEY_ROOM];
    size_t length;
    pylock_version_kind kind;
    if (is_of(item, state->version)) return told_phase(state, item);
    if (!text_of(item, &view)) return NULL;
    int32_t code = pylock_version_read(view.bytes, view.length, room, KEY_ROOM, &length, &kind);
    text_done(&view);
    if (code == PYLOCK_OK || code == PYLOCK_ROOM) return PyBool_FromLong(kind.is_prerelease);
    if (is_no_version(code)) return hold(Py_None);
    raise_refusal(state, code, item, "version");
    return NULL;
}

static PyMethodDef version_functions[] = {
    CALL_NAMED("canonicalize_version", canonicalize_version, "canonicalize_version($module, version, *, strip_trailing_zero=True)\n--\n\nThe normal form of a version, by default without zeros at the end of its release. Other texts stay."),
    {"normalize_pre", normalize_pre, METH_O, PyDoc_STR("normalize_pre($module, letter, /)\n--\n\nThe normal spelling of the word of a pre-release; another word in lower case.")},
    {"phase", phase, METH_O, PyDoc_STR("Whether a version, or that of a text, is a pre-release; None of a text that is none.")},
    {"version_key", version_key, METH_O, PyDoc_STR("Bytes whose order is the order of versions.")},
    {"version_record", version_record, METH_O, PyDoc_STR("The parts of a version, with tabs between (pylock_version).")},
    {NULL, NULL, 0, NULL},
};

bool add_versions(PyObject *module, State *state)
{
    if (!add_type(module, "Version", &state->version, &version_spec)) return false;
    state->version_class = (PyTypeObject *)hold((PyObject *)state->version);
    if ((state->letters = made_letters()) == NULL) return false;
    return PyModule_AddFunctions(module, version_functions) == 0;
}
