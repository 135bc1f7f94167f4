/* Tables of Python as TOML, for the library's reader, and objects of such tables. What is given is written as it is, and the
 * library judges it. */
#include "native.h"

/* ---- the text that is written ---- */

/* The library's reader takes 80 arrays and tables in one another. */
enum { DEEPEST = 200, LEAST_ROOM = 4096, WORD = 8, BETWEEN_SIGNALS = 65536 };

typedef struct {
    uint8_t *bytes;
    size_t length, room;
    /* the length at which signals were asked for last */
    size_t asked;
    /* half a character was written */
    bool has_halves;
    int depth;
    /* the Python function that says what a value is whose type isn't one of those that are known here */
    PyObject *other;
} Writer;

static bool make_room(Writer *writer, size_t more)
{
    if (writer->room - writer->length >= more) return true;
    size_t most = PY_SSIZE_T_MAX, room = writer->room < LEAST_ROOM ? LEAST_ROOM : writer->room;
    if (more > most - writer->length) return PyErr_NoMemory() != NULL;
    while (room < writer->length + more) room = room > most / 2 ? most : room * 2;
    uint8_t *bytes = PyMem_Realloc(writer->bytes, room);
    if (bytes == NULL) return PyErr_NoMemory() != NULL;
    writer->bytes = bytes;
    writer->room = room;
    return true;
}

static bool put(Writer *writer, const void *bytes, size_t length)
{
    if (!make_room(writer, length)) return false;
    memcpy(writer->bytes + writer->length, bytes, length);
    writer->length += length;
    return true;
}

static bool put_sign(Writer *writer, char sign)
{
    if (!make_room(writer, 1)) return false;
    writer->bytes[writer->length++] = (uint8_t)sign;
    return true;
}

/* ---- quoted texts ---- */

/* The letter of an escape, or 0 where there is none of its own. */
static char letter_of(uint8_t byte)
{
    switch (byte) {
    case '"':
    case '\\': return (char)byte;
    case '\b': return 'b';
    case '\t': return 't';
    case '\n': return 'n';
    case '\f': return 'f';
    case '\r': return 'r';
    default: return 0;
    }
}

static bool put_escape(Writer *writer, uint8_t byte)
{
    static const char digits[] = "0123456789abcdef";
    char letter = letter_of(byte);
    char escape[] = {'\\', letter == 0 ? 'u' : letter, '0', '0', digits[byte >> 4], digits[byte & 15]};
    return put(writer, escape, letter == 0 ? sizeof escape : 2);
}

static bool is_plain(uint8_t byte)
{
    return byte >= 0x20 && byte != '"' && byte != '\\' && byte != 0x7f;
}

#define ONES UINT64_C(0x0101010101010101)

/* A word in which the highest bit of some byte is set where a byte of this one is below the least, which is 0x80 at most. */
static uint64_t below(uint64_t word, uint64_t least)
{
    return (word - ONES * least) & ~word & ONES * 0x80;
}

static bool are_plain(const uint8_t *bytes)
{
    uint64_t word;
    memcpy(&word, bytes, WORD);
    return (below(word, 0x20) | below(word ^ ONES * '"', 1) | below(word ^ ONES * '\\', 1) | below(word ^ ONES * 0x7f, 1)) == 0;
}

/* How many bytes stand before the first that has to be escaped. */
static size_t plain_length(const uint8_t *bytes, size_t length)
{
    size_t plain = 0;
    while (length - plain >= WORD && are_plain(bytes + plain)) plain += WORD;
    while (plain < length && is_plain(bytes[plain])) plain++;
    return plain;
}

static bool put_quoted(Writer *writer, const uint8_t *bytes, size_t length)
{
    bool is_good = put_sign(writer, '"');
    while (is_good) {
        size_t plain = plain_length(bytes, length);
        is_good = put(writer, bytes, plain);
        if (plain == length) break;
        is_good = is_good && put_escape(writer, bytes[plain]);
        bytes += plain + 1;
        length -= plain + 1;
    }
    return is_good && put_sign(writer, '"');
}

/* Whether half a character is among the bytes of a text: in UTF-8 it would stand behind this byte. */
static bool has_halves(const Text *text)
{
    Text rest = *text, piece;
    while (cut_text(&rest, (char)0xed, &piece))
        if (rest.length > 0 && rest.bytes[0] >= 0xa0) return true;
    return false;
}

static bool put_str(Writer *writer, PyObject *object, bool is_quoted)
{
    Text text;
    if (!text_of(object, &text)) return false;
    bool is_good = is_quoted ? put_quoted(writer, text.bytes, text.length) : put(writer, text.bytes, text.length);
    if (text.holder != NULL && has_halves(&text)) writer->has_halves = true;
    text_done(&text);
    return is_good;
}

/* ---- values ---- */

static bool put_value(Writer *writer, PyObject *value);
static bool put_other(Writer *writer, PyObject *value);

static bool put_integer(Writer *writer, PyObject *value)
{
    char digits[24], *place = digits + sizeof digits;
    int overflow = 0;
    long long number = PyLong_AsLongLongAndOverflow(value, &overflow);
    if (number == -1 && PyErr_Occurred()) return false;
    if (overflow != 0) return put_other(writer, value);
    unsigned long long rest = number < 0 ? 0 - (unsigned long long)number : (unsigned long long)number;
    do *--place = (char)('0' + rest % 10);
    while ((rest /= 10) != 0);
    if (number < 0) *--place = '-';
    return put(writer, place, (size_t)(digits + sizeof digits - place));
}

static bool put_float(Writer *writer, PyObject *value)
{
    double number = PyFloat_AsDouble(value);
    if (number == -1.0 && PyErr_Occurred()) return false;
    char *digits = PyOS_double_to_string(number, 'r', 0, Py_DTSF_ADD_DOT_0, NULL);
    if (digits == NULL) return false;
    bool is_good = put(writer, digits, strlen(digits));
    PyMem_Free(digits);
    return is_good;
}

static bool put_key(Writer *writer, PyObject *key)
{
    if (PyUnicode_Check(key)) return put_str(writer, key, true) && put_sign(writer, '=');
    PyObject *name = PyObject_GetAttrString((PyObject *)Py_TYPE(key), "__name__");
    if (name != NULL) PyErr_Format(PyExc_TypeError, "a key of TOML is a text, not %S", name);
    Py_XDECREF(name);
    return false;
}

/* What ends a member, where a signal may end all. */
static bool end_member(Writer *writer, char sign)
{
    if (!put_sign(writer, sign)) return false;
    if (writer->length - writer->asked < BETWEEN_SIGNALS) return true;
    writer->asked = writer->length;
    return PyErr_CheckSignals() == 0;
}

/* ---- arrays and tables ---- */

/* The members of a dict, each with the sign behind it. */
static bool put_dict(Writer *writer, PyObject *dict, char sign)
{
    Walk walk = walk_over(dict);
    bool is_good = true;
    while (is_good && walk_on(&walk))
        is_good = put_key(writer, walk.key) && put_value(writer, walk.member) && end_member(writer, sign);
    end_walk(&walk);
    return is_good && !PyErr_Occurred();
}

/* The members of a list or a tuple, which may be changed meanwhile. */
static bool put_listed(Writer *writer, PyObject *list)
{
    bool is_list = PyList_Check(list);
    for (Py_ssize_t place = 0; place < (is_list ? PyList_Size(list) : PyTuple_Size(list)); place++) {
        PyObject *member = is_list ? PyList_GetItem(list, place) : PyTuple_GetItem(list, place);
        hold(member);
        bool is_good = put_value(writer, member) && end_member(writer, ',');
        let_go(member);
        if (!is_good) return false;
    }
    return true;
}

static bool put_pair(Writer *writer, PyObject *pair)
{
    if (PyTuple_Check(pair) && PyTuple_Size(pair) == 2)
        return put_key(writer, PyTuple_GetItem(pair, 0)) && put_value(writer, PyTuple_GetItem(pair, 1));
    PyErr_SetString(PyExc_TypeError, "expected pairs");
    return false;
}

/* What is iterated: pairs of a table, or the members of an array. */
static bool put_iterated(Writer *writer, PyObject *members, bool is_table, char sign)
{
    PyObject *iterator = PyObject_GetIter(members), *member;
    bool is_good = iterator != NULL;
    while (is_good && (member = PyIter_Next(iterator)) != NULL) {
        is_good = (is_table ? put_pair(writer, member) : put_value(writer, member)) && end_member(writer, sign);
        Py_DECREF(member);
    }
    Py_XDECREF(iterator);
    return is_good && !PyErr_Occurred();
}

static bool is_array(PyObject *value)
{
    return PyList_CheckExact(value) || PyTuple_CheckExact(value);
}

/* The members of a table or an array, each with the sign behind it. */
static bool put_members(Writer *writer, PyObject *members, bool is_table, char sign)
{
    if (is_table && PyDict_CheckExact(members)) return put_dict(writer, members, sign);
    if (!is_table && is_array(members)) return put_listed(writer, members);
    return put_iterated(writer, members, is_table, sign);
}

/* A table or an array that is a value. */
static bool put_inner(Writer *writer, PyObject *members, bool is_table)
{
    if (writer->depth == DEEPEST) {
        PyErr_SetString(PyExc_RecursionError, "too many arrays and tables stand in one another");
        return false;
    }
    writer->depth++;
    bool is_good = put_sign(writer, is_table ? '{' : '[');
    size_t begin = writer->length;
    is_good = is_good && put_members(writer, members, is_table, ',');
    writer->depth--;
    /* there is no comma behind the last */
    if (is_good && writer->length > begin) writer->length--;
    return is_good && put_sign(writer, is_table ? '}' : ']');
}

/* ---- values of other types ---- */

/* What the Python layer says of a value: its text, or the members of a table or an array. A new reference. */
static PyObject *found_of(Writer *writer, PyObject *value, bool *is_table)
{
    PyObject *found = PyObject_CallFunctionObjArgs(writer->other, value, NULL), *members = NULL;
    if (found == NULL || PyUnicode_Check(found)) return found;
    if (PyTuple_Check(found) && PyTuple_Size(found) == 2) {
        *is_table = PyTuple_GetItem(found, 0) == Py_True;
        members = PyTuple_GetItem(found, 1);
        Py_INCREF(members);
    } else
        PyErr_SetString(PyExc_TypeError, "expected a text, or whether it is a table and its members");
    Py_DECREF(found);
    return members;
}

static bool put_other(Writer *writer, PyObject *value)
{
    bool is_table = false;
    PyObject *found = found_of(writer, value, &is_table);
    if (found == NULL) return false;
    bool is_good = PyUnicode_Check(found) ? put_str(writer, found, false) : put_inner(writer, found, is_table);
    Py_DECREF(found);
    return is_good;
}

static bool put_value(Writer *writer, PyObject *value)
{
    if (PyUnicode_Check(value)) return put_str(writer, value, true);
    if (PyDict_CheckExact(value)) return put_inner(writer, value, true);
    if (is_array(value)) return put_inner(writer, value, false);
    if (PyBool_Check(value)) return value == Py_True ? put(writer, "true", 4) : put(writer, "false", 5);
    if (PyLong_Check(value)) return put_integer(writer, value);
    return PyFloat_Check(value) ? put_float(writer, value) : put_other(writer, value);
}

/* ---- the document ---- */

/* The bytes that were written. Half a character is refused as Python refuses it in the whole text. */
static PyObject *written_of(const Writer *writer)
{
    const char *bytes = (const char *)writer->bytes;
    if (!writer->has_halves) return PyBytes_FromStringAndSize(bytes, (Py_ssize_t)writer->length);
    PyObject *text = str_with_halves(writer->bytes, writer->length);
    PyObject *written = text == NULL ? NULL : PyUnicode_AsUTF8String(text);
    Py_XDECREF(text);
    return written;
}

/* toml(table, other): a line for each key. */
static PyObject *toml(PyObject *module, PyObject *const *arguments, Py_ssize_t count)
{
    (void)module;
    if (!check_count("toml", count, 2)) return NULL;
    Writer writer = {.other = arguments[1]};
    bool is_table = true;
    PyObject *table = arguments[0], *written = NULL;
    if (PyDict_CheckExact(table))
        Py_INCREF(table);
    else
        table = found_of(&writer, table, &is_table);
    /* an empty text has a place too */
    if (table != NULL && make_room(&writer, 1) && put_members(&writer, table, true, '\n')) written = written_of(&writer);
    Py_XDECREF(table);
    PyMem_Free(writer.bytes);
    return written;
}

/* ---- objects of tables ---- */

/* Whether it is a class that was made at run time, and stands on such classes and on `object` alone. Of others the objects
 * may have attributes that aren't given as those are, as a type and a module have. */
static bool is_plain_class(PyObject *kind)
{
    if (!PyType_Check(kind)) return false;
    PyTypeObject *type = (PyTypeObject *)kind;
    while (type != NULL && (PyType_GetFlags(type) & Py_TPFLAGS_HEAPTYPE) != 0) type = PyType_GetSlot(type, Py_tp_base);
    return type == &PyBaseObject_Type && kind != (PyObject *)type;
}

PyObject *new_of(PyObject *kind)
{
    newfunc make = is_plain_class(kind) ? (newfunc)PyType_GetSlot((PyTypeObject *)kind, Py_tp_new) : NULL;
    if (make == NULL) {
        PyErr_SetString(PyExc_TypeError, "expected a class that is made in Python");
        return NULL;
    }
    PyObject *nothing = PyTuple_New(0);
    PyObject *made = nothing == NULL ? NULL : make((PyTypeObject *)kind, nothing, NULL);
    Py_XDECREF(nothing);
    /* a __new__ in Python may give anything */
    if (made == NULL || Py_TYPE(made) == (PyTypeObject *)kind) return made;
    PyErr_Format(PyExc_TypeError, "expected an object of %R, not of %R", kind, (PyObject *)Py_TYPE(made));
    Py_DECREF(made);
    return NULL;
}

/* Gives the object an attribute: of a name, or of a pair of a name and of what reads a value that isn't None. */
static bool give(PyObject *made, PyObject *attribute, PyObject *value)
{
    if (!PyTuple_Check(attribute)) return PyObject_GenericSetAttr(made, attribute, value) == 0;
    PyObject *name, *reader;
    if (!PyArg_ParseTuple(attribute, "OO", &name, &reader)) return false;
    if (value == Py_None) return PyObject_GenericSetAttr(made, name, value) == 0;
    PyObject *read = PyObject_CallFunctionObjArgs(reader, value, NULL);
    bool is_good = read != NULL && PyObject_GenericSetAttr(made, name, read) == 0;
    Py_XDECREF(read);
    return is_good;
}

/* Gives the object what the dict has for the attributes, by their keys. */
static bool give_all(PyObject *made, PyObject *attributes, PyObject *dict)
{
    Walk walk = walk_over(dict);
    bool is_good = true;
    while (is_good && walk_on(&walk)) {
        PyObject *attribute = PyDict_GetItemWithError(attributes, walk.key);
        if (attribute == NULL) {
            is_good = !PyErr_Occurred();
            continue;
        }
        hold(attribute);
        is_good = give(made, attribute, walk.member);
        let_go(attribute);
    }
    end_walk(&walk);
    return is_good && !PyErr_Occurred();
}

/* The items of a mapping as a dict: a new reference. */
static PyObject *dict_of(PyObject *mapping)
{
    if (PyDict_CheckExact(mapping)) {
        Py_INCREF(mapping);
        return mapping;
    }
    PyObject *items = PyObject_CallMethod(mapping, "items", NULL);
    PyObject *dict = items == NULL ? NULL : PyObject_CallFunctionObjArgs((PyObject *)&PyDict_Type, items, NULL);
    Py_XDECREF(items);
    return dict;
}

/* An object of the class with what a table has for the attributes. */
static PyObject *object_of(PyObject *kind, PyObject *attributes, PyObject *table)
{
    PyObject *object = new_of(kind), *dict = object == NULL ? NULL : dict_of(table);
    if (object != NULL && (dict == NULL || !give_all(object, attributes, dict))) Py_CLEAR(object);
    Py_XDECREF(dict);
    return object;
}

static bool are_attributes(PyObject *attributes)
{
    if (PyDict_Check(attributes)) return true;
    PyErr_SetString(PyExc_TypeError, "expected a dict of attributes");
    return false;
}

/* made(kind, attributes, table): `attributes` has for each key that is known the name of the attribute, or a pair of it and
 * of a function that reads the value. */
static PyObject *made(PyObject *module, PyObject *const *arguments, Py_ssize_t count)
{
    (void)module;
    if (!check_count("made", count, 3) || !are_attributes(arguments[1])) return NULL;
    return object_of(arguments[0], arguments[1], arguments[2]);
}

/* made_all(kind, attributes, tables): a list of such objects. */
static PyObject *made_all(PyObject *module, PyObject *const *arguments, Py_ssize_t count)
{
    (void)module;
    if (!check_count("made_all", count, 3) || !are_attributes(arguments[1])) return NULL;
    PyObject *tables = PyObject_GetIter(arguments[2]), *list = tables == NULL ? NULL : PyList_New(0), *table;
    while (list != NULL && (table = PyIter_Next(tables)) != NULL) {
        PyObject *object = object_of(arguments[0], arguments[1], table);
        Py_DECREF(table);
        if (object == NULL || PyList_Append(list, object) < 0 || PyErr_CheckSignals() < 0) Py_CLEAR(list);
        Py_XDECREF(object);
    }
    Py_XDECREF(tables);
    if (PyErr_Occurred()) Py_CLEAR(list);
    return list;
}

static PyMethodDef table_functions[] = {
    CALL("toml", toml, "The table as a document of TOML. A function says what a value of an unknown type is."),
    CALL("made", made, "An object of a class with what a table has for its attributes."),
    CALL("made_all", made_all, "A list of such objects, of tables."),
    {NULL, NULL, 0, NULL},
};

bool add_tables(PyObject *module)
{
    return PyModule_AddFunctions(module, table_functions) == 0;
}
