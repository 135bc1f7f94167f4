/* Names of projects, of wheels and of sdists, and requirements. */
#include "native.h"
#include "writer.h"

/* ---- names ---- */

/* The library's normal form, in which letters that aren't ASCII become lower case as str.lower has it. */
PyObject *normal_name(State *state, PyObject *text)
{
    Text view;
    Result result;
    if (!text_of(text, &view)) return NULL;
    int32_t code = result_of_text(pylock_name, &view, &result);
    bool is_ascii = view.length == (size_t)PyUnicode_GetLength(text);
    PyObject *normal = NULL;
    if (code != PYLOCK_OK)
        raise_refusal(state, code, text, "name");
    else if (is_as_written(&result, &view))
        normal = exact_text(text);
    else
        normal = is_ascii ? PyUnicode_DecodeLatin1((const char *)result.bytes, (Py_ssize_t)result.length, NULL) : str_of(result.bytes, result.length);
    result_done(&result);
    text_done(&view);
    if (normal == NULL || is_ascii) return normal;
    PyObject *small = PyObject_CallMethod(normal, "lower", NULL);
    Py_DECREF(normal);
    return small;
}

/* 1 or 0, or -1 with an exception. A text with half a character is no name. */
static int told_name(PyObject *text)
{
    Text view;
    bool is_name = false;
    if (!text_of(text, &view)) return -1;
    int32_t code = pylock_is_name(view.bytes, view.length, &is_name);
    text_done(&view);
    return code == PYLOCK_OK && is_name;
}

static PyObject *is_name(PyObject *module, PyObject *text)
{
    (void)module;
    int told = told_name(text);
    return told < 0 ? NULL : PyBool_FromLong(told);
}

static PyObject *canonicalize_name(PyObject *module, PyObject *const *arguments, Py_ssize_t count, PyObject *names)
{
    static const Signature signature = {"canonicalize_name", "name", "validate"};
    bool validate = false;
    PyObject *text = one_and_flag(&signature, arguments, count, names, &validate);
    if (text == NULL) return NULL;
    State *state = state_of_call(module);
    if (validate) {
        int told = told_name(text);
        if (told == 0) raise_refusal(state, PYLOCK_EDIT_NAME, text, "name");
        if (told <= 0) return NULL;
    }
    return normal_name(state, text);
}

/* Whether a text is a name and its own normal form: 1 or 0, or -1 with an exception. */
static int told_normal(State *state, PyObject *text)
{
    Text view;
    Result result;
    bool is_name = false;
    int told = 0;
    if (!text_of(text, &view)) return -1;
    if (pylock_is_name(view.bytes, view.length, &is_name) == PYLOCK_OK && is_name) {
        int32_t code = result_of_text(pylock_name, &view, &result);
        if (code == PYLOCK_OK)
            told = is_as_written(&result, &view);
        else {
            raise_refusal(state, code, text, "name");
            told = -1;
        }
        result_done(&result);
    }
    text_done(&view);
    return told;
}

static PyObject *is_normalized_name(PyObject *module, PyObject *const *arguments, Py_ssize_t count, PyObject *names)
{
    static const Signature signature = {"is_normalized_name", "name", NULL};
    PyObject *text = one_and_flag(&signature, arguments, count, names, NULL);
    int told = text == NULL ? -1 : told_normal(state_of_call(module), text);
    return told < 0 ? NULL : PyBool_FromLong(told);
}

/* ---- records ---- */

static PyObject *all_fields(State *state, Record *record)
{
    (void)state;
    return fields_of(record->rest.bytes, record->rest.length);
}

static PyObject *requirement(PyObject *module, PyObject *text)
{
    return record_of_text(state_of(module), pylock_requirement, text, "requirement", all_fields);
}

static PyObject *requirement_expected(PyObject *module, PyObject *text)
{
    return record_of_text(state_of(module), pylock_requirement_expected, text, "requirement", all_fields);
}

static PyObject *marker_expected(PyObject *module, PyObject *text)
{
    return record_of_text(state_of(module), pylock_marker_expected, text, "marker", all_fields);
}

static PyObject *set_expected(PyObject *module, PyObject *text)
{
    return record_of_text(state_of(module), pylock_set_expected, text, "specifier", all_fields);
}

static PyObject *specifier_expected(PyObject *module, PyObject *text)
{
    return record_of_text(state_of(module), pylock_specifier_expected, text, "specifier", all_fields);
}

static PyObject *wheel(PyObject *module, PyObject *text)
{
    return record_of_text(state_of(module), pylock_wheel, text, "wheel", all_fields);
}

static PyObject *sdist(PyObject *module, PyObject *text)
{
    return record_of_text(state_of(module), pylock_sdist, text, "sdist", all_fields);
}

static int32_t tree_of_text(const uint8_t *text, size_t length, pylock_text *record)
{
    pylock_marker marker = {0};
    int32_t code = pylock_marker_parse(&marker, text, length);
    if (code == PYLOCK_OK) code = pylock_marker_tree(&marker, record);
    pylock_marker_free(&marker);
    return code;
}

static PyObject *marker_pieces(PyObject *module, PyObject *text)
{
    return record_of_text(state_of(module), tree_of_text, text, "marker", all_fields);
}

/* ---- requirements ---- */

/* The name: the text itself where it is all of that. */
static PyObject *next_name(Record *record, PyObject *text, const Text *whole)
{
    Text view;
    PyObject *name = next_field(record);
    if (name == NULL || !text_of(name, &view)) return name;
    bool is_whole = view.length == whole->length;
    text_done(&view);
    if (!is_whole) return name;
    Py_DECREF(name);
    return exact_text(text);
}

static PyObject *next_extras(Record *record)
{
    PyObject *field = next_field(record), *names = NULL, *extras = NULL;
    if (field == Py_None) {
        extras = PySet_New(NULL);
    } else if (field != NULL) {
        PyObject *comma = PyUnicode_FromString(",");
        names = comma == NULL ? NULL : PyUnicode_Split(field, comma, -1);
        Py_XDECREF(comma);
        if (names != NULL) extras = PySet_New(names);
    }
    Py_XDECREF(field);
    Py_XDECREF(names);
    return extras;
}

/* The text of the set as it is written, of a requirement that has one; else an empty one. */
static PyObject *next_set(State *state, Record *record, PyObject *text, const Text *whole)
{
    Result written;
    PyObject *field = next_field(record), *set = NULL;
    if (field == NULL) return NULL;
    bool has_set = field != Py_None;
    Py_DECREF(field);
    if (!has_set) return PyUnicode_FromString("");
    int32_t code = result_of_text(pylock_requirement_set, whole, &written);
    if (code == PYLOCK_OK)
        set = str_of(written.bytes, written.length);
    else
        raise_refusal(state, code, text, "requirement");
    result_done(&written);
    return set;
}

static PyObject *next_marker(State *state, Record *record)
{
    PyObject *field = next_field(record);
    if (field == NULL || field == Py_None) return field;
    PyObject *marker = marker_of_known(state, field);
    Py_DECREF(field);
    return marker;
}

static PyObject *parts_of_record(State *state, Record *record, PyObject *text, const Text *whole)
{
    PyObject *name, *extras = NULL, *set = NULL, *url = NULL, *marker = NULL, *parts = NULL;
    if ((name = next_name(record, text, whole)) != NULL && (extras = next_extras(record)) != NULL &&
        (set = next_set(state, record, text, whole)) != NULL && (url = next_field(record)) != NULL &&
        (marker = next_marker(state, record)) != NULL)
        parts = PyTuple_Pack(5, name, url, extras, set, marker);
    Py_XDECREF(name);
    Py_XDECREF(extras);
    Py_XDECREF(set);
    Py_XDECREF(url);
    Py_XDECREF(marker);
    return parts;
}

static PyObject *requirement_parts(PyObject *module, PyObject *text)
{
    State *state = state_of(module);
    Text view;
    Result result;
    pylock_text kept = {0};
    PyObject *parts = NULL;
    if (!text_of(text, &view)) return NULL;
    /* what runs meanwhile may take the text away, which is asked for the set */
    hold(text);
    result.bytes = result.near;
    int32_t code = pylock_requirement(view.bytes, view.length, &kept);
    if (code == PYLOCK_OK) code = result_of_kept(&kept, &result);
    Record record = {{result.bytes, result.length, NULL}, true};
    if (code == PYLOCK_OK)
        parts = parts_of_record(state, &record, text, &view);
    else
        raise_refusal(state, code, text, "requirement");
    result_done(&result);
    text_done(&view);
    let_go(text);
    return parts;
}

/* ---- the text of a requirement, of its parts as they are now ---- */

/* Puts what `str` says of a part. */
static bool put_str(Writer *writer, PyObject *part)
{
    PyObject *text = PyObject_Str(part);
    bool is_good = text != NULL && put_text(writer, text);
    Py_XDECREF(text);
    return is_good;
}

static bool put_extras(Writer *writer, PyObject *extras)
{
    PyObject *names = PySequence_List(extras);
    bool is_good = names != NULL && PyList_Sort(names) == 0 && put_sign(writer, '[');
    for (Py_ssize_t place = 0; is_good && place < PyList_Size(names); place++) {
        PyObject *name = hold(PyList_GetItem(names, place));
        is_good = name != NULL && (place == 0 || put_sign(writer, ',')) && put_text(writer, name);
        let_go(name);
    }
    Py_XDECREF(names);
    return is_good && put_sign(writer, ']');
}

enum { NAME, EXTRAS, SPECIFIER, URL, MARKER, COUNT_OF_PARTS };

/* Whether a part is there: -1 with an exception. */
static int has_part(PyObject *part)
{
    return part == Py_None ? 0 : PyObject_IsTrue(part);
}

static bool put_parts(Writer *writer, PyObject *const *parts)
{
    int extras = has_part(parts[EXTRAS]), specifier = extras < 0 ? -1 : has_part(parts[SPECIFIER]);
    int url = specifier < 0 ? -1 : has_part(parts[URL]), marker = url < 0 ? -1 : has_part(parts[MARKER]);
    return marker >= 0 && put_text(writer, parts[NAME]) && (!extras || put_extras(writer, parts[EXTRAS])) &&
        (!specifier || put_str(writer, parts[SPECIFIER])) &&
        (!url || (put(writer, " @ ", 3) && put_str(writer, parts[URL]) && (!marker || put_sign(writer, ' ')))) &&
        (!marker || (put(writer, "; ", 2) && put_str(writer, parts[MARKER])));
}

/* requirement_text(name, extras, specifier, url, marker) */
static PyObject *requirement_text(PyObject *module, PyObject *const *arguments, Py_ssize_t count)
{
    PyObject *parts[COUNT_OF_PARTS], *text = NULL;
    Writer writer;
    (void)module;
    if (!check_count("requirement_text", count, COUNT_OF_PARTS)) return NULL;
    for (int part = 0; part < COUNT_OF_PARTS; part++) parts[part] = hold(arguments[part]);
    begin_writing(&writer);
    /* half a character may stand in a part */
    if (put_parts(&writer, parts)) text = str_with_halves(writer.bytes, writer.length);
    end_writing(&writer);
    for (int part = 0; part < COUNT_OF_PARTS; part++) let_go(parts[part]);
    return text;
}

/* ---- the parts of a file's name, as Python has them ---- */

static PyObject *next_version(State *state, Record *record)
{
    PyObject *text = next_field(record);
    PyObject *version = text == NULL ? NULL : version_of_normal(state, text);
    Py_XDECREF(text);
    return version;
}

/* Nothing, or the number of the digits and what stands behind them. */
static PyObject *next_build(Record *record)
{
    PyObject *digits = next_field(record), *rest = digits == NULL ? NULL : next_field(record), *number = NULL, *build = NULL;
    if (rest != NULL && digits == Py_None)
        build = PyTuple_New(0);
    else if (rest != NULL)
        number = PyObject_CallFunctionObjArgs((PyObject *)&PyLong_Type, digits, NULL);
    if (number != NULL) build = PyTuple_Pack(2, number, rest);
    Py_XDECREF(digits);
    Py_XDECREF(rest);
    Py_XDECREF(number);
    return build;
}

static PyObject *wheel_of_record(State *state, Record *record)
{
    PyObject *name, *version = NULL, *build = NULL, *tags = NULL, *parts = NULL;
    if ((name = next_field(record)) != NULL && (version = next_version(state, record)) != NULL &&
        (build = next_build(record)) != NULL && (tags = tags_of(state, record)) != NULL)
        parts = PyTuple_Pack(4, name, version, build, tags);
    Py_XDECREF(name);
    Py_XDECREF(version);
    Py_XDECREF(build);
    Py_XDECREF(tags);
    return parts;
}

enum { LENGTH_OF_WHL = 4, PARTS_OF_TAG = 3 };

/* Whether the pieces of each part of a wheel's tag are in order; else an exception says so. */
static bool has_order(State *state, PyObject *text)
{
    PyObject *dash = PyUnicode_FromString("-"), *part, *ordered;
    PyObject *stem = dash == NULL ? NULL : PyUnicode_Substring(text, 0, PyUnicode_GetLength(text) - LENGTH_OF_WHL);
    PyObject *parts = stem == NULL ? NULL : PyUnicode_RSplit(stem, dash, PARTS_OF_TAG);
    int told = parts == NULL ? -1 : are_in_order(parts, PyList_Size(parts) - PARTS_OF_TAG, &part, &ordered);
    if (told == 0) {
        raise_refusal(state, PYLOCK_WHEEL_TAGS, text, "order");
        Py_DECREF(ordered);
    }
    Py_XDECREF(dash);
    Py_XDECREF(stem);
    Py_XDECREF(parts);
    return told == 1;
}

/* parse_wheel_filename(filename, *, validate_order=False) */
static PyObject *parse_wheel_filename(PyObject *module, PyObject *const *arguments, Py_ssize_t count, PyObject *names)
{
    static const Signature signature = {"parse_wheel_filename", "filename", "validate_order"};
    bool validate_order = false;
    State *state = state_of(module);
    PyObject *text = one_and_flag(&signature, arguments, count, names, &validate_order);
    PyObject *parts = text == NULL ? NULL : record_of_text(state, pylock_wheel_parts, text, "wheel", wheel_of_record);
    if (parts != NULL && validate_order && !has_order(state, text)) Py_CLEAR(parts);
    return parts;
}

static PyObject *sdist_of_record(State *state, Record *record)
{
    PyObject *name = next_field(record), *version = name == NULL ? NULL : next_version(state, record);
    PyObject *parts = version == NULL ? NULL : PyTuple_Pack(2, name, version);
    Py_XDECREF(name);
    Py_XDECREF(version);
    return parts;
}

static PyObject *parse_sdist_filename(PyObject *module, PyObject *const *arguments, Py_ssize_t count, PyObject *names)
{
    static const Signature signature = {"parse_sdist_filename", "filename", NULL};
    PyObject *text = one_and_flag(&signature, arguments, count, names, NULL);
    return text == NULL ? NULL : record_of_text(state_of(module), pylock_sdist, text, "sdist", sdist_of_record);
}

static PyMethodDef name_functions[] = {
    CALL_NAMED("canonicalize_name", canonicalize_name, "canonicalize_name($module, name, *, validate=False)\n--\n\nThe normal form of a text as a name (PEP 503); with `validate` a text that is no name is refused."),
    {"is_name", is_name, METH_O, PyDoc_STR("Whether the text is a name (PEP 508).")},
    CALL_NAMED("is_normalized_name", is_normalized_name, "is_normalized_name($module, name)\n--\n\nWhether the text is a name in normal form."),
    {"requirement", requirement, METH_O, PyDoc_STR("The fields of a requirement (pylock_requirement).")},
    {"requirement_expected", requirement_expected, METH_O, PyDoc_STR("What was expected of a text (pylock_requirement_expected).")},
    {"marker_expected", marker_expected, METH_O, PyDoc_STR("What was expected of a text (pylock_marker_expected).")},
    {"set_expected", set_expected, METH_O, PyDoc_STR("What was expected of a text (pylock_set_expected).")},
    {"specifier_expected", specifier_expected, METH_O, PyDoc_STR("What was expected of a text (pylock_specifier_expected).")},
    {"requirement_parts", requirement_parts, METH_O, PyDoc_STR("The name, the URL, the extras, the text of the set as it is written, and the marker of a requirement.")},
    CALL("requirement_text", requirement_text, "The text of a requirement of its name, extras, specifier set, URL and marker."),
    {"wheel", wheel, METH_O, PyDoc_STR("The fields of the name of a wheel (pylock_wheel).")},
    {"sdist", sdist, METH_O, PyDoc_STR("The fields of the name of an sdist (pylock_sdist).")},
    {"marker_pieces", marker_pieces, METH_O, PyDoc_STR("The pieces of a marker's text (pylock_marker_tree).")},
    CALL_NAMED("parse_wheel_filename", parse_wheel_filename, "parse_wheel_filename($module, filename, *, validate_order=False)\n--\n\nThe name in normal form, the version, the build (empty, or a number and the rest) and the tags of a wheel. With `validate_order` the pieces of a tag's part have to be in the order of texts (PEP 425)."),
    CALL_NAMED("parse_sdist_filename", parse_sdist_filename, "parse_sdist_filename($module, filename)\n--\n\nThe name in normal form and the version of an sdist (PEP 625), whose file name is cut at its last dash."),
    {NULL, NULL, 0, NULL},
};

bool add_names(PyObject *module, State *state)
{
    (void)state;
    return PyModule_AddFunctions(module, name_functions) == 0;
}
