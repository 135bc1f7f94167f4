/* Markers. What one says is an expression, which its copies have too, and what is joined of it has it as a side: so to join two
 * takes the same time, whatever they say. Calls on markers are short and keep the interpreter's lock. */
#include "native.h"
#include "writer.h"

/* as many parentheses may be open at once */
enum { MOST_OPEN = 64 };

enum { COUNT_OF_SETS = 2 };
static const char *const SETS[COUNT_OF_SETS] = {"extras", "dependency_groups"};

typedef struct Expression Expression;

/* It isn't changed but by what is found of it when it is first asked for. */
struct Expression {
    union {
        /* how many have it */
        size_t users;
        /* of one that ends: the next that does */
        Expression *next;
    };
    /* an exact text that the library has read; NULL of two sides of which nobody has asked for it */
    PyObject *text;
    union {
        /* of a text */
        struct {
            /* as `packaging` writes it: NULL until it is asked for */
            PyObject *string;
            /* empty until a value is asked for */
            pylock_marker slot;
        };
        /* of two sides */
        struct {
            Expression *left, *right;
            /* about as many letters has their text */
            size_t length;
        };
    };
    /* how deep sides stand in one another; 0 of a text */
    uint32_t depth;
    /* the word between the sides */
    bool is_or;
    /* found with the string: whether an `and` or `or` stands in it, in no parentheses, and whether the variable `extra` does */
    bool is_several, names_extra;
    /* found with the slot: the sets that it reads */
    bool reads[COUNT_OF_SETS];
};

typedef struct {
    PyObject_HEAD
    State *state;
    /* NULL until a text is read */
    Expression *expression;
    /* a tuple that the Python layer keeps here, once a program has the marker's tree: NULL until then */
    PyObject *tree;
} Marker;

/* ---- what is written ---- */

static void take_out(Writer *writer, size_t place)
{
    writer->length--;
    memmove(writer->bytes + place, writer->bytes + place + 1, writer->length - place);
}

/* ---- the pieces of a marker, as the library tells them ---- */

/* The record of a marker's pieces (pylock_marker_tree), which `result_done` gives back. */
static int32_t read_pieces(pylock_marker *marker, Result *pieces)
{
    pylock_text kept = {0};
    pieces->bytes = pieces->near;
    int32_t code = pylock_marker_tree(marker, &kept);
    return code == PYLOCK_OK ? result_of_kept(&kept, pieces) : code;
}

/* The next piece of what is left, a field: a parenthesis, a word, an operator, or a quoted text behind a mark; empty at the end. */
static Text next_piece(Text *rest)
{
    const uint8_t *end = rest->length == 0 ? NULL : memchr(rest->bytes, '\t', rest->length);
    Text piece = {rest->bytes, end == NULL ? rest->length : (size_t)(end - rest->bytes), NULL};
    size_t length = end == NULL ? piece.length : piece.length + 1;
    rest->bytes += length;
    rest->length -= length;
    return piece;
}

static bool is_word(const Text *piece, const char *word)
{
    return piece->length == strlen(word) && memcmp(piece->bytes, word, piece->length) == 0;
}

static bool is_quoted(const Text *piece)
{
    return piece->length > 0 && piece->bytes[0] == '"';
}

/* Whether a word stands among the pieces. */
static bool has_word(const Result *pieces, const char *word)
{
    Text rest = {pieces->bytes, pieces->length, NULL}, piece;
    while ((piece = next_piece(&rest)).length > 0)
        if (is_word(&piece, word)) return true;
    return false;
}

/* The text that a piece quotes. Of what a record escapes a marker has a TAB alone: with one, the text is written into the room. */
static bool quoted_text(const Text *piece, Writer *room, Text *text)
{
    const uint8_t *at = piece->bytes + 1, *end = piece->bytes + piece->length, *escape;
    *text = (Text){at, (size_t)(end - at), NULL};
    if (memchr(at, '\\', text->length) == NULL) return true;
    while ((escape = memchr(at, '\\', (size_t)(end - at))) != NULL) {
        if (!put(room, at, (size_t)(escape - at)) || !put_sign(room, '\t')) return false;
        at = escape + 2;
    }
    bool is_good = put(room, at, (size_t)(end - at));
    *text = (Text){room->bytes, room->length, NULL};
    return is_good;
}

/* ---- a marker as `packaging` writes it ---- */

/* What is found of a marker beside its string. */
typedef struct {
    bool is_several, names_extra;
} Found;

/* A text, which has one kind of quotation marks at most, in those of the other. */
static bool put_quoted(Writer *writer, const Text *text)
{
    char mark = text->length > 0 && memchr(text->bytes, '"', text->length) != NULL ? '\'' : '"';
    return put_sign(writer, mark) && put(writer, text->bytes, text->length) && put_sign(writer, mark);
}

/* The normal form of the name that a text is. */
static bool put_name(State *state, Writer *writer, const Text *name)
{
    Text view;
    PyObject *given = str_of(name->bytes, name->length);
    PyObject *normal = given == NULL ? NULL : normal_name(state, given);
    Py_XDECREF(given);
    bool is_good = normal != NULL && text_of(normal, &view);
    if (is_good) {
        is_good = put_quoted(writer, &view);
        text_done(&view);
    }
    Py_XDECREF(normal);
    return is_good;
}

/* A side of a comparison: a name in normal form where the other side is `extra`, but not in parentheses. */
static bool put_side(State *state, Writer *writer, const Text *side, const Text *other, bool is_outermost)
{
    Writer room;
    Text text;
    if (!is_quoted(side)) return put(writer, side->bytes, side->length);
    bool is_name = is_outermost && is_word(other, "extra");
    begin_writing(&room);
    bool is_good = quoted_text(side, &room, &text) && (is_name ? put_name(state, writer, &text) : put_quoted(writer, &text));
    end_writing(&room);
    return is_good;
}

static bool put_comparison(State *state, Writer *writer, const Text *left, Text *rest, bool is_outermost, Found *found)
{
    Text operator = next_piece(rest), right = next_piece(rest);
    found->names_extra |= is_word(left, "extra") || is_word(&right, "extra");
    return put_side(state, writer, left, &right, is_outermost) && put_sign(writer, ' ') &&
        put(writer, operator.bytes, operator.length) && put_sign(writer, ' ') &&
        put_side(state, writer, &right, left, is_outermost);
}

/* What stands between two parentheses: where the first is written, and whether there is an `and` or `or` between. */
typedef struct {
    size_t place;
    bool is_several;
} Stretch;

/* Ends a stretch. Round a single thing no parentheses stay. */
static bool close_stretch(Writer *writer, const Stretch *stretch)
{
    if (stretch->is_several) return put_sign(writer, ')');
    take_out(writer, stretch->place);
    return true;
}

/* Writes a marker of its pieces, and finds whether an `and` or `or` stands in it, in no parentheses. */
static bool put_marker(State *state, Writer *writer, const Result *pieces, Found *found)
{
    Stretch open[MOST_OPEN + 1] = {{0, false}}, *inner = open;
    Text rest = {pieces->bytes, pieces->length, NULL}, piece;
    bool is_good = true, is_behind = false;
    while (is_good && (piece = next_piece(&rest)).length > 0) {
        if (piece.bytes[0] == '(' && inner < open + MOST_OPEN) {
            *++inner = (Stretch){writer->length, false};
            is_good = put_sign(writer, '(');
        } else if (piece.bytes[0] == ')' && inner > open) {
            is_good = close_stretch(writer, inner--);
        } else if (is_behind) {
            inner->is_several = true;
            is_good = put_sign(writer, ' ') && put(writer, piece.bytes, piece.length) && put_sign(writer, ' ');
            is_behind = false;
        } else {
            is_good = put_comparison(state, writer, &piece, &rest, inner == open, found);
            is_behind = true;
        }
    }
    found->is_several = open->is_several || (writer->length > 0 && writer->bytes[0] == '(');
    if (is_good && found->is_several && !open->is_several) {
        take_out(writer, 0);
        writer->length--;
    }
    return is_good;
}

/* ---- expressions ---- */

static Expression *use(Expression *expression)
{
    expression->users++;
    return expression;
}

static void end_use(Expression *expression, Expression **ending)
{
    if (--expression->users > 0) return;
    expression->next = *ending;
    *ending = expression;
}

/* One ends after the other: sides may stand in one another without an end. */
static void leave(Expression *expression)
{
    Expression *ending = NULL;
    end_use(expression, &ending);
    while (ending != NULL) {
        Expression *one = ending;
        ending = one->next;
        if (one->text == NULL) {
            end_use(one->left, &ending);
            end_use(one->right, &ending);
        } else {
            pylock_marker_free(&one->slot);
            Py_XDECREF(one->string);
            Py_DECREF(one->text);
        }
        PyMem_Free(one);
    }
}

static Expression *new_expression(void)
{
    Expression *expression = PyMem_Malloc(sizeof(Expression));
    if (expression == NULL) return (Expression *)PyErr_NoMemory();
    memset(expression, 0, sizeof(Expression));
    expression->users = 1;
    return expression;
}

/* The expression of a text that the library has read. */
static Expression *expression_of(PyObject *text)
{
    PyObject *exact = exact_text(text);
    Expression *expression = exact == NULL ? NULL : new_expression();
    if (expression != NULL)
        expression->text = exact;
    else
        Py_XDECREF(exact);
    return expression;
}

/* Whether the library takes the text as a marker; else an exception says why not. */
static bool is_taken(State *state, const Text *view, PyObject *text)
{
    pylock_marker slot = {0};
    int32_t code = pylock_marker_parse(&slot, view->bytes, view->length);
    pylock_marker_free(&slot);
    if (code != PYLOCK_OK) raise_refusal(state, code, text, "marker");
    return code == PYLOCK_OK;
}

static Expression *read_expression(State *state, PyObject *text)
{
    Text view;
    if (!text_of(text, &view)) return NULL;
    Expression *expression = is_taken(state, &view, text) ? expression_of(text) : NULL;
    text_done(&view);
    return expression;
}

/* The sum, or the most of which memory can be asked for. */
static size_t sum_of(size_t left, size_t right)
{
    enum { SIGNS_BETWEEN = 9 };
    const size_t most = PY_SSIZE_T_MAX / 4;
    return left > most || right > most - left ? most : left + right + SIGNS_BETWEEN;
}

static size_t length_of(const Expression *expression)
{
    return expression->text == NULL ? expression->length : (size_t)PyUnicode_GetLength(expression->text);
}

/* Two sides, which it holds then. */
static Expression *joined(Expression *left, Expression *right, bool is_or)
{
    Expression *expression = new_expression();
    if (expression == NULL) return NULL;
    uint32_t deeper = left->depth > right->depth ? left->depth : right->depth;
    expression->depth = deeper < UINT32_MAX ? deeper + 1 : deeper;
    expression->length = sum_of(length_of(left), length_of(right));
    expression->is_or = is_or;
    expression->left = use(left);
    expression->right = use(right);
    return expression;
}

static bool find_string(State *state, Expression *expression);
static bool put_sides(State *state, Writer *writer, Expression *expression, bool is_outermost);

/* Writes a side: in parentheses where more than a comparison is in it, and where its name of an extra isn't to be taken for one
 * that stands in none. */
static bool put_part(State *state, Writer *writer, Expression *part, bool is_outermost)
{
    Text view;
    if (part->text == NULL) return put_sides(state, writer, part, false);
    if (!find_string(state, part) || !text_of(part->string, &view)) return false;
    bool has_signs = part->is_several || (is_outermost && part->names_extra);
    bool is_good = (!has_signs || put_sign(writer, '(')) && put(writer, view.bytes, view.length) &&
        (!has_signs || put_sign(writer, ')'));
    text_done(&view);
    return is_good;
}

/* Writes both sides of an expression that has no text. */
static bool put_sides(State *state, Writer *writer, Expression *expression, bool is_outermost)
{
    /* what runs meanwhile may give the expression its text, and then it has no sides */
    Expression *left = use(expression->left), *right = use(expression->right);
    bool is_or = expression->is_or;
    /* what is too long for the memory isn't begun */
    bool is_good = make_room(writer, expression->length) && (is_outermost || put_sign(writer, '(')) &&
        put_part(state, writer, left, is_outermost) && put(writer, is_or ? " or " : " and ", is_or ? 4 : 5) &&
        put_part(state, writer, right, is_outermost) && (is_outermost || put_sign(writer, ')'));
    leave(left);
    leave(right);
    return is_good;
}

/* Refuses sides that stand too deep in one another for a text. */
static bool refuse_depth(State *state)
{
    PyObject *shown = PyUnicode_FromString("(...) and (...)");
    if (shown != NULL) raise_refusal(state, PYLOCK_MARKER_TOO_DEEP, shown, "marker");
    Py_XDECREF(shown);
    return false;
}

/* Gives two sides their text. */
static void settle(Expression *expression, PyObject *text)
{
    Expression *left = expression->left, *right = expression->right;
    expression->text = hold(text);
    expression->depth = 0;
    expression->string = NULL;
    memset(&expression->slot, 0, sizeof expression->slot);
    leave(left);
    leave(right);
}

/* Whether the expression has a text; else an exception says why the library takes none for it. */
static bool has_text(State *state, Expression *expression)
{
    Writer writer;
    if (expression->text != NULL) return true;
    /* round the sides themselves there are none */
    if (expression->depth > MOST_OPEN + 1) return refuse_depth(state);
    begin_writing(&writer);
    bool is_good = put_sides(state, &writer, expression, true);
    PyObject *text = is_good ? str_of(writer.bytes, writer.length) : NULL;
    Text view = {writer.bytes, writer.length, NULL};
    is_good = text != NULL && is_taken(state, &view, text);
    end_writing(&writer);
    /* what else ran meanwhile may have done so too */
    if (is_good && expression->text == NULL) settle(expression, text);
    Py_XDECREF(text);
    return is_good;
}

/* The string of a text that is a marker, and what is found beside it: NULL with an exception. */
static PyObject *made_string(State *state, PyObject *text, Found *found)
{
    Text view;
    Writer writer;
    Result pieces = {.length = 0};
    pylock_marker slot = {0};
    PyObject *string = NULL;
    if (!text_of(text, &view)) return NULL;
    pieces.bytes = pieces.near;
    /* the empty text is that of an empty tree */
    int32_t code = view.length == 0 ? PYLOCK_OK : pylock_marker_parse(&slot, view.bytes, view.length);
    if (view.length > 0 && code == PYLOCK_OK) code = read_pieces(&slot, &pieces);
    pylock_marker_free(&slot);
    begin_writing(&writer);
    if (code != PYLOCK_OK) {
        raise_refusal(state, code, text, "marker");
    } else if (put_marker(state, &writer, &pieces, found)) {
        Result result = {.bytes = writer.bytes, .length = writer.length};
        string = str_of_result(&result, text, &view);
    }
    end_writing(&writer);
    result_done(&pieces);
    text_done(&view);
    return string;
}

/* Whether the expression has its string; else an exception is there. */
static bool find_string(State *state, Expression *expression)
{
    Found found = {false, false};
    if (!has_text(state, expression)) return false;
    if (expression->string != NULL) return true;
    PyObject *string = made_string(state, expression->text, &found);
    if (string == NULL) return false;
    expression->is_several = found.is_several;
    expression->names_extra = found.names_extra;
    /* what else ran meanwhile may have found it too */
    if (expression->string == NULL)
        expression->string = string;
    else
        Py_DECREF(string);
    return true;
}

/* Reads the view of an expression's text into a slot. The empty text, of an empty tree, is true. */
static int32_t read_view(const Text *view, pylock_marker *slot)
{
    static const Text is_true = {(const uint8_t *)"''==''", 6, NULL};
    const Text *text = view->length == 0 ? &is_true : view;
    return pylock_marker_parse(slot, text->bytes, text->length);
}

/* The same for values. */
static int32_t fill_slot(Expression *expression, const Text *view)
{
    pylock_marker slot = {0};
    Result pieces = {.length = 0};
    pieces.bytes = pieces.near;
    int32_t code = read_view(view, &slot);
    if (code == PYLOCK_OK) code = read_pieces(&slot, &pieces);
    for (int place = 0; code == PYLOCK_OK && place < COUNT_OF_SETS; place++) expression->reads[place] = has_word(&pieces, SETS[place]);
    result_done(&pieces);
    if (code == PYLOCK_OK)
        expression->slot = slot;
    else
        pylock_marker_free(&slot);
    return code;
}

/* Whether the library has the expression for values; else an exception is there. */
static bool has_slot(State *state, Expression *expression)
{
    Text view;
    if (expression->text != NULL && expression->slot.full) return true;
    if (!has_text(state, expression) || !text_of(expression->text, &view)) return false;
    /* what else ran meanwhile may have filled it too */
    int32_t code = expression->slot.full ? PYLOCK_OK : fill_slot(expression, &view);
    text_done(&view);
    if (code != PYLOCK_OK) raise_refusal(state, code, expression->text, "marker");
    return code == PYLOCK_OK;
}

/* ---- making ---- */

/* Gives a marker what it says, in place of what it said. */
static void give(Marker *marker, Expression *expression)
{
    Expression *before = marker->expression;
    PyObject *tree = marker->tree;
    marker->expression = expression;
    marker->tree = NULL;
    if (before != NULL) leave(before);
    Py_XDECREF(tree);
}

static PyObject *marker_new(PyTypeObject *type, PyObject *arguments, PyObject *named)
{
    (void)arguments, (void)named;
    State *state = state_of_type(type);
    return state == NULL ? NULL : new_object(state, type);
}

static int marker_init(PyObject *self, PyObject *arguments, PyObject *named)
{
    static char *words[] = {"marker", NULL};
    PyObject *taken[MOST_TAKEN] = {NULL};
    if (named == NULL && PyTuple_Size(arguments) == 1)
        taken[0] = hold(PyTuple_GetItem(arguments, 0));
    else if (!take_arguments(arguments, named, "O:Marker", words, taken))
        return -1;
    Expression *expression = read_expression(((Marker *)self)->state, taken[0]);
    if (expression != NULL) give((Marker *)self, expression);
    let_arguments_go(taken);
    return expression == NULL ? -1 : 0;
}

/* A marker of this class, made without its __init__. */
static PyObject *marker_of_class(State *state, PyTypeObject *type)
{
    newfunc make = (newfunc)PyType_GetSlot(type, Py_tp_new);
    if (make == marker_new) return new_object(state, type);
    hold((PyObject *)type);
    PyObject *nothing = PyTuple_New(0);
    PyObject *made = nothing == NULL ? NULL : make(type, nothing, NULL);
    Py_XDECREF(nothing);
    let_go((PyObject *)type);
    if (made == NULL || is_of(made, state->marker)) return made;
    PyErr_Format(PyExc_TypeError, "expected a marker, not %R", (PyObject *)Py_TYPE(made));
    Py_DECREF(made);
    return NULL;
}

/* A marker of the class that says this; NULL where there is no expression, as an exception says. */
static PyObject *marker_of(State *state, PyTypeObject *type, Expression *expression)
{
    PyObject *made = expression == NULL ? NULL : marker_of_class(state, type);
    if (made != NULL)
        give((Marker *)made, expression);
    else if (expression != NULL)
        leave(expression);
    return made;
}

PyObject *marker_of_known(State *state, PyObject *text)
{
    return marker_of(state, state->marker_class, expression_of(text));
}

static int marker_traverse(PyObject *self, visitproc visit, void *arg)
{
    Py_VISIT(((Marker *)self)->tree);
    return visit_type_in(self, visit, arg, marker_traverse);
}

static int marker_clear(PyObject *self)
{
    Py_CLEAR(((Marker *)self)->tree);
    return 0;
}

static void marker_dealloc(PyObject *self)
{
    PyObject_GC_UnTrack(self);
    give((Marker *)self, NULL);
    free_object(self);
}

/* ---- the tree ---- */

/* Has the tree read again, where a program has it and changed it: false with an exception. */
static bool follow_tree(Marker *marker)
{
    if (marker->tree == NULL) return true;
    PyObject *told = PyObject_CallMethod((PyObject *)marker, "_follow_tree", NULL);
    Py_XDECREF(told);
    return told != NULL;
}

/* What the marker says, as long as it is used: NULL with an exception. */
static Expression *said(PyObject *self)
{
    Marker *marker = (Marker *)self;
    if (!follow_tree(marker)) return NULL;
    if (marker->expression != NULL) return use(marker->expression);
    PyErr_SetString(PyExc_ValueError, "pylock: the marker has no text yet");
    return NULL;
}

static PyObject *get_tree(PyObject *self, void *closure)
{
    PyObject *tree = ((Marker *)self)->tree;
    (void)closure;
    return hold(tree == NULL ? Py_None : tree);
}

/* A tuple: of what else holds itself, much may end within one another's end. */
static int set_tree(PyObject *self, PyObject *tree, void *closure)
{
    PyObject *before = ((Marker *)self)->tree;
    (void)closure;
    if (tree == NULL || !PyTuple_CheckExact(tree)) {
        PyErr_SetString(PyExc_TypeError, "expected a tuple");
        return -1;
    }
    ((Marker *)self)->tree = hold(tree);
    Py_XDECREF(before);
    return 0;
}

/* _read(text): makes it the marker of a text, without a tree. That of the empty text is true. */
static PyObject *marker_read(PyObject *self, PyObject *text)
{
    Marker *marker = (Marker *)self;
    bool is_empty = PyUnicode_Check(text) && PyUnicode_GetLength(text) == 0;
    Expression *expression = is_empty ? expression_of(text) : read_expression(marker->state, text);
    if (expression == NULL) return NULL;
    give(marker, expression);
    return hold(Py_None);
}

/* ---- joining, copies ---- */

static PyObject *joined_of(PyObject *self, PyObject *other, bool is_or)
{
    State *state = ((Marker *)self)->state;
    if (!is_of(other, state->marker)) return hold(Py_NotImplemented);
    Expression *left = said(self), *right = left == NULL ? NULL : said(other);
    Expression *both = right == NULL ? NULL : joined(left, right, is_or);
    if (left != NULL) leave(left);
    if (right != NULL) leave(right);
    return marker_of(state, Py_TYPE(self), both);
}

static PyObject *marker_and(PyObject *self, PyObject *other)
{
    return joined_of(self, other, false);
}

static PyObject *marker_or(PyObject *self, PyObject *other)
{
    return joined_of(self, other, true);
}

/* Who has a tree may change it, and means one marker: so a copy is another one. */
static PyObject *marker_copy(PyObject *self, PyObject *memo)
{
    (void)memo;
    return marker_of(((Marker *)self)->state, Py_TYPE(self), said(self));
}

/* ---- texts ---- */

static bool is_white(uint8_t byte)
{
    return byte == ' ' || (byte >= '\t' && byte <= '\r');
}

static PyObject *stripped(PyObject *text)
{
    Text view;
    if (!text_of(text, &view)) return NULL;
    const uint8_t *begin = view.bytes, *end = view.bytes + view.length;
    while (begin < end && is_white(*begin)) begin++;
    while (begin < end && is_white(end[-1])) end--;
    bool is_whole = (size_t)(end - begin) == view.length;
    PyObject *result = is_whole ? hold(text) : str_of(begin, (size_t)(end - begin));
    text_done(&view);
    return result;
}

static PyObject *get_text(PyObject *self, void *closure)
{
    (void)closure;
    State *state = ((Marker *)self)->state;
    Expression *expression = said(self);
    PyObject *text = expression != NULL && has_text(state, expression) ? stripped(expression->text) : NULL;
    if (expression != NULL) leave(expression);
    return text;
}

static PyObject *marker_str(PyObject *self)
{
    State *state = ((Marker *)self)->state;
    Expression *expression = said(self);
    PyObject *string = expression != NULL && find_string(state, expression) ? hold(expression->string) : NULL;
    if (expression != NULL) leave(expression);
    return string;
}

static PyObject *marker_repr(PyObject *self)
{
    PyObject *name = PyObject_GetAttrString((PyObject *)Py_TYPE(self), "__name__");
    PyObject *string = name == NULL ? NULL : PyObject_Str(self);
    PyObject *shown = string == NULL ? NULL : PyUnicode_FromFormat("<%S(%R)>", name, string);
    Py_XDECREF(name);
    Py_XDECREF(string);
    return shown;
}

static Py_hash_t marker_hash(PyObject *self)
{
    PyObject *string = PyObject_Str(self);
    Py_hash_t hash = string == NULL ? -1 : PyObject_Hash(string);
    Py_XDECREF(string);
    return hash;
}

/* Markers are equal where their strings are, which a class may have otherwise. */
static PyObject *marker_compare(PyObject *self, PyObject *other, int how)
{
    if ((how != Py_EQ && how != Py_NE) || !is_of(other, ((Marker *)self)->state->marker)) return hold(Py_NotImplemented);
    PyObject *left = PyObject_Str(self), *right = left == NULL ? NULL : PyObject_Str(other), *told = NULL;
    if (right != NULL) told = PyBool_FromLong((left == right || PyUnicode_Compare(left, right) == 0) == (how == Py_EQ));
    Py_XDECREF(left);
    Py_XDECREF(right);
    return told;
}

/* ---- values ---- */

static bool reads_any(const Expression *expression)
{
    return expression->reads[0] || expression->reads[1];
}

static PyObject *names_of_sets(const bool *reads)
{
    PyObject *names = PyTuple_New(reads[0] + reads[1]);
    Py_ssize_t at = 0;
    for (int place = 0; names != NULL && place < COUNT_OF_SETS; place++) {
        PyObject *name = reads[place] ? PyUnicode_FromString(SETS[place]) : NULL;
        if (reads[place] && (name == NULL || PyTuple_SetItem(names, at++, name) < 0)) Py_CLEAR(names);
    }
    return names;
}

/* The names of the sets that the marker reads. */
static PyObject *get_sets(PyObject *self, void *closure)
{
    (void)closure;
    State *state = ((Marker *)self)->state;
    Expression *expression = said(self);
    PyObject *names = expression != NULL && has_slot(state, expression) ? names_of_sets(expression->reads) : NULL;
    if (expression != NULL) leave(expression);
    return names;
}

/* The value in an environment, with the text of the operand `extra`, or NULL where it has none. */
static PyObject *value_in(State *state, Expression *expression, pylock_environment *environment, const Text *extra)
{
    bool value = false;
    int32_t code = extra == NULL
        ? pylock_marker_evaluate(&expression->slot, environment, &value)
        : pylock_marker_evaluate_with_extra(&expression->slot, environment, extra->bytes, extra->length, &value);
    if (code == PYLOCK_OK) return PyBool_FromLong(value);
    raise_refusal(state, code, expression->text, "name");
    return NULL;
}

/* The same with the text of `extra`, or None. */
static PyObject *value_with(State *state, Expression *expression, pylock_environment *environment, PyObject *extra)
{
    Text view;
    if (extra == Py_None) return value_in(state, expression, environment, NULL);
    if (!text_of(extra, &view)) return NULL;
    PyObject *value = value_in(state, expression, environment, &view);
    text_done(&view);
    return value;
}

/* _value_in(environment, extra) */
static PyObject *marker_value_in(PyObject *self, PyObject *const *arguments, Py_ssize_t count)
{
    State *state = ((Marker *)self)->state;
    if (!check_count("_value_in", count, 2)) return NULL;
    Expression *expression = said(self);
    bool is_good = expression != NULL && has_slot(state, expression);
    pylock_environment *environment = is_good ? environment_of_object(state, arguments[0]) : NULL;
    PyObject *value = environment == NULL ? NULL : value_with(state, expression, environment, arguments[1]);
    if (expression != NULL) leave(expression);
    return value;
}

static PyObject *value_over(State *state, Expression *expression, PyObject *const *arguments)
{
    static const Text nothing = {(const uint8_t *)"", 0, NULL};
    PyObject *extra = arguments[2];
    bool has_extra = arguments[3] == Py_True;
    if (reads_any(expression)) return hold(Py_None);
    pylock_environment *environment = layers_with(state, arguments[0], arguments[1], &extra, &has_extra);
    if (environment == NULL) return PyErr_Occurred() ? NULL : hold(Py_None);
    bool is_empty = extra == Py_None && has_extra;
    PyObject *value = is_empty ? value_in(state, expression, environment, &nothing) : value_with(state, expression, environment, extra);
    Py_DECREF(extra);
    return value;
}

/* _value_over(layers, mapping, extra, has_extra): the value with a dict, or None, laid over the variables of the layers;
 * None where the dict has more than variables as texts, or the marker reads a set. The operand `extra` is the text of `extra`,
 * else that of the dict, else empty where it has one or `has_extra` is true. */
static PyObject *marker_value_over(PyObject *self, PyObject *const *arguments, Py_ssize_t count)
{
    State *state = ((Marker *)self)->state;
    if (!check_count("_value_over", count, 4)) return NULL;
    Expression *expression = said(self);
    PyObject *value = expression != NULL && has_slot(state, expression) ? value_over(state, expression, arguments) : NULL;
    if (expression != NULL) leave(expression);
    return value;
}

/* ---- what is asked of every environment ---- */

typedef int32_t (*MarkersCall)(pylock_marker *first, pylock_marker *second, int32_t *answer, pylock_environment *witness);

/* The fields of the record of a witness, or None where the answer is another one; NULL with an exception. */
static PyObject *environment_shown(State *state, int32_t answer, pylock_environment *witness)
{
    pylock_text kept = {0};
    Result record;
    if (answer != PYLOCK_NO) return hold(Py_None);
    record.bytes = record.near;
    int32_t code = pylock_environment_record(witness, &kept);
    if (code == PYLOCK_OK) code = result_of_kept(&kept, &record);
    pylock_environment_free(witness);
    PyObject *fields = code == PYLOCK_OK ? fields_of(record.bytes, record.length) : NULL;
    if (code != PYLOCK_OK) raise_refusal(state, code, Py_None, "name");
    result_done(&record);
    return fields;
}

/* The code of a question about two expressions that have slots, or -1 with an exception. One beside itself has a second slot. */
static int32_t ask_both(Expression *first, Expression *second, MarkersCall call, int32_t *answer, pylock_environment *witness)
{
    Text view;
    pylock_marker twin = {0};
    if (first != second) return call(&first->slot, &second->slot, answer, witness);
    if (!text_of(first->text, &view)) return -1;
    int32_t code = read_view(&view, &twin);
    text_done(&view);
    if (code == PYLOCK_OK) code = call(&first->slot, &twin, answer, witness);
    pylock_marker_free(&twin);
    return code;
}

static PyObject *asked_of_both(PyObject *self, PyObject *other, MarkersCall call)
{
    State *state = ((Marker *)self)->state;
    pylock_environment witness = {0};
    int32_t answer = PYLOCK_UNDECIDED, code = -1;
    if (!is_of(other, state->marker)) return PyErr_Format(PyExc_TypeError, "expected a Marker, not %R", (PyObject *)Py_TYPE(other));
    Expression *first = said(self), *second = first == NULL ? NULL : said(other);
    if (second != NULL && has_slot(state, first) && has_slot(state, second)) code = ask_both(first, second, call, &answer, &witness);
    if (code > PYLOCK_OK) raise_refusal(state, code, first->text, "marker");
    if (first != NULL) leave(first);
    if (second != NULL) leave(second);
    return code == PYLOCK_OK ? told_answer(answer, environment_shown(state, answer, &witness)) : NULL;
}

static PyObject *marker_disjoint(PyObject *self, PyObject *other)
{
    return asked_of_both(self, other, pylock_marker_is_disjoint);
}

static PyObject *marker_implied(PyObject *self, PyObject *other)
{
    return asked_of_both(self, other, pylock_marker_implies);
}

static PyMethodDef marker_methods[] = {
    {"__and__", marker_and, METH_O, PyDoc_STR("The marker that both are true.")},
    {"__or__", marker_or, METH_O, PyDoc_STR("The marker that one of them is true.")},
    {"__copy__", marker_copy, METH_NOARGS, PyDoc_STR("A marker of its own that says the same.")},
    {"__deepcopy__", marker_copy, METH_O, PyDoc_STR("A marker of its own that says the same.")},
    {"_disjoint", marker_disjoint, METH_O,
     PyDoc_STR("Whether in no environment both are true: a number, and the fields of an environment that shows 0, or None.")},
    {"_implied", marker_implied, METH_O, PyDoc_STR("Whether the other is true wherever this one is: the same.")},
    {"_read", marker_read, METH_O, PyDoc_STR("Makes it the marker of a text; that of the empty one is true.")},
    CALL("_value_in", marker_value_in, "The value in an environment, with the text of the operand `extra` or None."),
    CALL("_value_over", marker_value_over,
         "The value in a dict laid over layers; None where the dict has more than variables, or the marker reads a set."),
    {NULL, NULL, 0, NULL},
};

static PyGetSetDef marker_getters[] = {
    {"text", get_text, NULL, PyDoc_STR("The text as it was given, without the white space round it."), NULL},
    {"_sets", get_sets, NULL, PyDoc_STR("The names of the sets that it reads."), NULL},
    {"_tree", get_tree, set_tree, PyDoc_STR("What the layer keeps of the tree."), NULL},
    {NULL, NULL, NULL, NULL, NULL},
};

static PyType_Slot marker_slots[] = {
    {Py_tp_doc, (void *)PyDoc_STR("Marker(marker)\n--\n\nA marker: the base of the class in pylock.markers.")},
    {Py_tp_new, marker_new},
    {Py_tp_init, marker_init},
    {Py_tp_dealloc, marker_dealloc},
    {Py_tp_traverse, marker_traverse},
    {Py_tp_clear, marker_clear},
    {Py_tp_str, marker_str},
    {Py_tp_repr, marker_repr},
    {Py_tp_hash, marker_hash},
    {Py_tp_richcompare, marker_compare},
    {Py_tp_methods, marker_methods},
    {Py_tp_getset, marker_getters},
    {0, NULL},
};

static PyType_Spec marker_spec = {
    .name = "pylock._native.Marker",
    .basicsize = sizeof(Marker),
    .flags = Py_TPFLAGS_DEFAULT | Py_TPFLAGS_BASETYPE | Py_TPFLAGS_HAVE_GC,
    .slots = marker_slots,
};

bool add_markers(PyObject *module, State *state)
{
    if (!add_type(module, "Marker", &state->marker, &marker_spec)) return false;
    state->marker_class = (PyTypeObject *)hold((PyObject *)state->marker);
    return true;
}
