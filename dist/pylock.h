/* pylock: Python's packaging rules and the plan of a pylock.toml, for C.
 *
 * tools/make/library builds libpylock.a and libpylock.so. Every function of the library
 * is proved; what a caller has to uphold is on this page.
 *
 * TEXTS are a pointer and a length in bytes, need no 0 byte at their end, and
 * are read only during the call. No pointer may be NULL, also where its length
 * is 0: pass "" and 0. What the pointers of one call point to must not overlap.
 * Lengths are below 2^63.
 *
 * CODES. A call answers PYLOCK_OK or why it is refused. A refused call has
 * changed nothing: neither the objects nor what its pointers point to, unless
 * its comment says so.
 *
 * SHORT RESULTS are written to `out`, which has `room` bytes. `*needed` is set to
 * the length of the result, also where `room` is too small (PYLOCK_ROOM), and
 * then nothing is written. There is no 0 byte at the end; bytes of `out` behind
 * the result stay. With room 0 a call asks for the length alone.
 *
 * OBJECTS live in slots of the caller:
 *
 *     pylock_marker marker = {0};              // empty
 *     int32_t code = pylock_marker_parse(&marker, text, length);
 *     ..
 *     pylock_marker_free(&marker);             // empty again
 *
 * A slot that is all zeros is empty. The caller owns the slot and never looks
 * into it or copies it; it may be moved (memcpy), if the old place is then
 * forgotten. A call that fills a slot frees what the slot held, once it has
 * succeeded. A call on an empty slot answers PYLOCK_EMPTY, and to free an empty
 * slot does nothing.
 *
 * LINES OF FIELDS ("record" below): fields with a TAB between. In a field TAB,
 * LF, CR and \ are written \t, \n, \r and \\; the text - is written \-, and -
 * alone says that there is none. A record has no LF at its end.
 *
 * THREADS. The library starts no thread and keeps no state between calls but in
 * slots. Calls with different slots may run at the same time. Of one slot one
 * call runs at a time, which a lock sees to, or the start or the end of a thread.
 * A slot of texts, sets, markers or environments may go from thread to thread; a
 * slot of sessions or runs stays on the thread that filled it.
 *
 * MEMORY is asked of malloc and realloc, and given back by free. PYLOCK_MEMORY
 * says that a request was refused; the call has then changed nothing. No call is
 * made from a signal handler, or from the forked child of a process with threads.
 */
#ifndef PYLOCK_H
#define PYLOCK_H

#include <stdbool.h>
#include <stddef.h>
#include <stdint.h>

#ifdef __cplusplus
extern "C" {
#endif

enum pylock_code {
    PYLOCK_OK = 0,
    PYLOCK_MEMORY = 1,    /* a memory request was refused */
    PYLOCK_NOT_UTF8 = 2,  /* a text isn't UTF-8 */
    PYLOCK_EMPTY = 3,     /* no object in a slot */
    PYLOCK_ROOM = 4,      /* the result is longer than `room` */
    PYLOCK_PARTS = 5,     /* the lengths of joined texts don't add up to their bytes */
    PYLOCK_INPUT = 6,     /* more than 1,000,000 edit lines, or than 268,435,456 bytes */

    /* a version (PEP 440) */
    PYLOCK_VERSION_SYNTAX = 10, /* the text is no version */
    PYLOCK_VERSION_NUMBER = 11, /* a number is past 128 bits */

    /* a specifier set (PEP 440) */
    PYLOCK_SET_SYNTAX = 20,
    PYLOCK_SET_NUMBER = 21,

    /* a marker's text (PEP 508) */
    PYLOCK_MARKER_TOO_DEEP = 30,   /* more than 64 parentheses are open */
    PYLOCK_MARKER_SYNTAX = 31,
    PYLOCK_MARKER_SET_MISUSE = 32, /* extras or dependency_groups not right of in */

    /* the value of a marker */
    PYLOCK_VALUE_UNSET = 40,     /* it reads a variable that isn't set */
    PYLOCK_VALUE_EXTRA = 41,     /* it reads extra, which has no value */
    PYLOCK_VALUE_UNDEFINED = 42, /* ~= or === between texts that are no versions */
    PYLOCK_VALUE_NUMBER = 43,    /* a version has a number past 128 bits */

    /* a requirement (PEP 508): the first thing that is wrong, from the left */
    PYLOCK_REQUIREMENT_NAME = 50,
    PYLOCK_REQUIREMENT_EXTRAS = 51,
    PYLOCK_REQUIREMENT_SPECIFIER = 52,
    PYLOCK_REQUIREMENT_URL = 53,
    PYLOCK_REQUIREMENT_MARKER = 54,
    PYLOCK_REQUIREMENT_TRAILING = 55,

    /* the name of a wheel (PEP 427) */
    PYLOCK_WHEEL_EXTENSION = 60,
    PYLOCK_WHEEL_PARTS = 61,
    PYLOCK_WHEEL_NAME = 62,
    PYLOCK_WHEEL_VERSION = 63,
    PYLOCK_WHEEL_BUILD = 64,
    PYLOCK_WHEEL_TAGS = 65,

    /* the name of a source distribution (PEP 625) */
    PYLOCK_SDIST_EXTENSION = 66,
    PYLOCK_SDIST_PARTS = 67,
    PYLOCK_SDIST_NAME = 68,
    PYLOCK_SDIST_VERSION = 69,

    /* a lock, an environment: `words` says what is wrong */
    PYLOCK_LOCK_REFUSED = 70,
    PYLOCK_ENVIRONMENT_REFUSED = 71,
    PYLOCK_LOCK_FINDINGS = 72, /* a strict reading refuses what is found in the lock */

    /* a target (PEP 425, PEP 600, PEP 656) */
    PYLOCK_TARGET_PYTHON = 73,
    PYLOCK_TARGET_PLATFORM = 74,

    /* tags of three parts (PEP 425) */
    PYLOCK_TAG_PARTS = 75,

    /* an edit of a session or of an environment */
    PYLOCK_EDIT_LONG = 80,     /* a line of more than 1,048,576 bytes */
    PYLOCK_EDIT_COMMAND = 81,  /* a line without a known command */
    PYLOCK_EDIT_ARGUMENT = 82, /* what follows a line's command has a wrong form */
    PYLOCK_EDIT_VARIABLE = 83, /* no variable of markers has this name */
    PYLOCK_EDIT_EXTRA = 84,    /* the lock has no such extra */
    PYLOCK_EDIT_GROUP = 85,    /* the lock has no such group */
    PYLOCK_EDIT_TAG = 86,      /* one of the tags is none */
    PYLOCK_EDIT_TOML = 87,     /* the entry is no TOML table */
    PYLOCK_EDIT_ENTRY = 88,    /* the entry has a wrong key */
    PYLOCK_EDIT_TOO_MANY = 89, /* the number 100,000 was given out */
    PYLOCK_EDIT_NO_ENTRY = 90, /* no entry has the number */
    PYLOCK_EDIT_NAME = 91      /* the name is none */
};

/* What a call answers that asks something of every version, or of every environment that an
 * interpreter of Python may have. */
enum pylock_answer {
    PYLOCK_NO = 0,       /* it isn't so, as the slot of the witness shows */
    PYLOCK_YES = 1,      /* it is so of all of them */
    PYLOCK_UNDECIDED = 2 /* the call can't tell */
};

/* The slots. `full` is false and `kept` NULL where the slot is empty. */
typedef struct { void *kept; bool full; } pylock_text;        /* bytes */
typedef struct { void *kept; bool full; } pylock_set;         /* a specifier set */
typedef struct { void *kept; bool full; } pylock_marker;      /* a marker */
typedef struct { void *kept; bool full; } pylock_environment; /* what markers are judged in */
typedef struct { void *kept; bool full; } pylock_session;     /* a lock in an environment */
typedef struct { void *kept; bool full; } pylock_run;         /* a session that edit lines change */

/* The version of this interface: 1. Calls and codes may be added under that number. */
uint32_t pylock_abi(void);

/* ---- kept texts: results without a small bound ---- */

/* The length of the text. PYLOCK_EMPTY. */
int32_t pylock_text_length(pylock_text *text, size_t *length);

/* The bytes of the text. PYLOCK_EMPTY, PYLOCK_ROOM. */
int32_t pylock_text_copy(pylock_text *text, uint8_t *out, size_t room, size_t *needed);

void pylock_text_free(pylock_text *text);

/* ---- versions, sets and names (PEP 440, PEP 503) ---- */

/* The order key of a version: bytes whose order is that of versions, compared as
 * memcmp does, and the shorter first where one begins with the other. Equal versions
 * have one key. PYLOCK_NOT_UTF8, PYLOCK_VERSION_*, PYLOCK_ROOM, PYLOCK_MEMORY. */
int32_t pylock_version_key(const uint8_t *text, size_t length,
                           uint8_t *out, size_t room, size_t *needed);

/* What kind of release a version is, and how its text is written. */
typedef struct {
    bool is_prerelease;  /* a pre-release or a development release */
    bool is_postrelease;
    bool is_devrelease;
    bool is_normal;      /* the text is the version's normal form */
} pylock_version_kind;

/* The order key of a version, as pylock_version_key, and its kind. PYLOCK_ROOM sets
 * `*kind` too. PYLOCK_NOT_UTF8, PYLOCK_VERSION_*, PYLOCK_ROOM, PYLOCK_MEMORY. */
int32_t pylock_version_read(const uint8_t *text, size_t length,
                            uint8_t *out, size_t room, size_t *needed,
                            pylock_version_kind *kind);

/* The normal form of a version; with `strip` without the zeros at the end of its
 * release, of which the first number stays.
 * PYLOCK_NOT_UTF8, PYLOCK_VERSION_*, PYLOCK_ROOM, PYLOCK_MEMORY. */
int32_t pylock_version_normal(const uint8_t *text, size_t length, bool strip,
                              uint8_t *out, size_t room, size_t *needed);

/* The parts of a version as numbers, each below 2^128 as its lower and its upper 64
 * bits, and where they stand in the normal form. A number that isn't there is 0. */
typedef struct {
    size_t base;       /* the length of epoch and release, as in 1!2.0 */
    size_t public_end; /* that of all but the local part: where there is one, a + stands here */
    uint64_t epoch_low, epoch_high;
    uint64_t pre_low, pre_high, post_low, post_high, dev_low, dev_high;
    uint8_t pre;       /* 'a', 'b' or 'r' (rc), or 0 where there is no pre-release */
    bool has_post, has_dev;
} pylock_version_parts;

/* `release` gets two words for each number of the release, the lower first; `*needed`
 * is how many words that are. PYLOCK_ROOM sets `*parts` too.
 * PYLOCK_NOT_UTF8, PYLOCK_VERSION_*, PYLOCK_ROOM, PYLOCK_MEMORY. */
int32_t pylock_version_split(const uint8_t *text, size_t length,
                             pylock_version_parts *parts,
                             uint64_t *release, size_t room, size_t *needed);

/* The order key of a version, its kind, its parts and the numbers of its release, of one
 * reading: what pylock_version_read and pylock_version_split tell. `key` and `release` are
 * written each where it has room. Where one hasn't, the call answers PYLOCK_ROOM; both needs,
 * `*kind` and `*parts` are set then too.
 * PYLOCK_NOT_UTF8, PYLOCK_VERSION_*, PYLOCK_ROOM, PYLOCK_MEMORY. */
int32_t pylock_version_whole(const uint8_t *text, size_t length,
                             uint8_t *key, size_t key_room, size_t *key_needed,
                             pylock_version_kind *kind, pylock_version_parts *parts,
                             uint64_t *release, size_t release_room, size_t *release_needed);

/* A record of a version's parts: its normal form; its public part (without the
 * local one); its base release (epoch and release, as 1!2.0); the epoch; the
 * release, as 2.0; the pre-release, as a1; the number of the post-release; that of
 * the development release; the local part, as abc.1. The last four may be absent.
 * PYLOCK_NOT_UTF8, PYLOCK_VERSION_*, PYLOCK_ROOM, PYLOCK_MEMORY. */
int32_t pylock_version(const uint8_t *text, size_t length,
                       uint8_t *out, size_t room, size_t *needed);

/* Where the specifiers of a set's text stand in it: of each, in their order, four
 * offsets: where its operator begins and ends, where its operand begins and ends.
 * `*needed` is how many offsets that are.
 * PYLOCK_NOT_UTF8, PYLOCK_SET_*, PYLOCK_ROOM, PYLOCK_MEMORY. */
int32_t pylock_set_spans(const uint8_t *text, size_t length,
                         size_t *out, size_t room, size_t *needed);

/* Whether the set admits the version, of any phase: pre-releases count as others.
 * The set's text is judged first. PYLOCK_NOT_UTF8, PYLOCK_SET_*, PYLOCK_VERSION_*,
 * PYLOCK_MEMORY. */
int32_t pylock_admits(const uint8_t *set, size_t set_length,
                      const uint8_t *version, size_t version_length, bool *admits);

/* The normal form of a text as a name (PEP 503), whether it is a name or not.
 * PYLOCK_NOT_UTF8, PYLOCK_ROOM, PYLOCK_MEMORY. */
int32_t pylock_name(const uint8_t *text, size_t length,
                    uint8_t *out, size_t room, size_t *needed);

/* Whether the text is a name (PEP 508). PYLOCK_NOT_UTF8. */
int32_t pylock_is_name(const uint8_t *text, size_t length, bool *is_name);

/* ---- requirements, wheel and sdist names, tags (PEP 508, PEP 427, PEP 625, PEP 425) ---- */

/* A record of a requirement's parts, as they are written: name; extras, joined by
 * a comma, repeats too; the normal form of the specifier set; URL; marker. Without
 * extras, or with an empty set, the field is absent.
 * PYLOCK_NOT_UTF8, PYLOCK_REQUIREMENT_*, PYLOCK_MEMORY. */
int32_t pylock_requirement(const uint8_t *text, size_t length, pylock_text *record);

/* The specifiers of a requirement as they are written, without the parentheses round
 * them: their text reads as the requirement's set. Empty where it has a URL or none.
 * Of a text that is no requirement it is a refusal or any piece of the text.
 * PYLOCK_NOT_UTF8, PYLOCK_REQUIREMENT_*, PYLOCK_ROOM, PYLOCK_MEMORY. */
int32_t pylock_requirement_set(const uint8_t *text, size_t length,
                               uint8_t *out, size_t room, size_t *needed);

/* A record of what was expected of a text that is refused as a requirement, and where:
 * how many bytes stand before the stretch of the text that it is about; how many
 * before the end of that, which is the place; a sentence; and for a person two lines,
 * the text with its secrets hidden, and below it the stretch. The stretch lies in the
 * text and cuts no character. Of a requirement the record is empty.
 * PYLOCK_NOT_UTF8, PYLOCK_MEMORY. */
int32_t pylock_requirement_expected(const uint8_t *text, size_t length, pylock_text *record);

/* The same of a marker, of a specifier set and of a single specifier. */
int32_t pylock_marker_expected(const uint8_t *text, size_t length, pylock_text *record);
int32_t pylock_set_expected(const uint8_t *text, size_t length, pylock_text *record);
int32_t pylock_specifier_expected(const uint8_t *text, size_t length, pylock_text *record);

/* A record of what the name of a wheel says: name as written; normal form of the
 * version; build as written, or absent; tags, joined by a space.
 * PYLOCK_NOT_UTF8, PYLOCK_WHEEL_*, PYLOCK_MEMORY. */
int32_t pylock_wheel(const uint8_t *text, size_t length, pylock_text *record);

/* The same part by part: a record of the normal forms of the name and of the version;
 * the number of the build, and what stands behind its digits (both absent where there
 * is no build, the second the empty text where nothing does); and then each tag as a
 * field of its own. PYLOCK_NOT_UTF8, PYLOCK_WHEEL_*, PYLOCK_MEMORY. */
int32_t pylock_wheel_parts(const uint8_t *text, size_t length, pylock_text *record);

/* The tags of a text of three parts with `-` between, each of which may be several
 * pieces with `.` between: a record, each of whose fields is one tag as it is written.
 * The first piece of each part comes first, and those of the last part go round
 * fastest. PYLOCK_TAG_PARTS: it hasn't three parts.
 * PYLOCK_NOT_UTF8, PYLOCK_TAG_PARTS, PYLOCK_MEMORY. */
int32_t pylock_tags(const uint8_t *text, size_t length, pylock_text *record);

/* A record of what the name of a source distribution says: normal form of the name;
 * normal form of the version. PYLOCK_NOT_UTF8, PYLOCK_SDIST_*, PYLOCK_MEMORY. */
int32_t pylock_sdist(const uint8_t *text, size_t length, pylock_text *record);

/* ---- specifier sets that are kept ---- */

/* PYLOCK_NOT_UTF8, PYLOCK_SET_*, PYLOCK_MEMORY. */
int32_t pylock_set_parse(pylock_set *set, const uint8_t *text, size_t length);

/* The normal form. PYLOCK_EMPTY, PYLOCK_ROOM. */
int32_t pylock_set_text(pylock_set *set, uint8_t *out, size_t room, size_t *needed);

/* As pylock_admits. PYLOCK_EMPTY, PYLOCK_NOT_UTF8, PYLOCK_VERSION_*, PYLOCK_MEMORY. */
int32_t pylock_set_admits(pylock_set *set, const uint8_t *version, size_t length, bool *admits);

/* Whether `second` admits each version that `first` does, of any phase: pre-releases count as
 * others. `*answer` is one of enum pylock_answer; of PYLOCK_NO `witness` is then the normal form
 * of a version that `first` alone admits, otherwise it stays. The slots differ: a set is asked
 * beside itself by a second slot. PYLOCK_EMPTY, PYLOCK_MEMORY. */
int32_t pylock_set_is_subset(pylock_set *first, pylock_set *second,
                             int32_t *answer, pylock_text *witness);

/* The same: whether no version is admitted by both sets. The witness is one that is. */
int32_t pylock_set_is_disjoint(pylock_set *first, pylock_set *second,
                               int32_t *answer, pylock_text *witness);

/* The same of one set: whether it admits no version. The witness is one that it admits. */
int32_t pylock_set_is_unsatisfiable(pylock_set *set, int32_t *answer, pylock_text *witness);

void pylock_set_free(pylock_set *set);

/* ---- markers, and the environments that they are judged in (PEP 508) ---- */

/* PYLOCK_NOT_UTF8, PYLOCK_MARKER_*, PYLOCK_MEMORY. */
int32_t pylock_marker_parse(pylock_marker *marker, const uint8_t *text, size_t length);

/* The text as it was given, without the white space round it. PYLOCK_EMPTY, PYLOCK_ROOM. */
int32_t pylock_marker_text(pylock_marker *marker, uint8_t *out, size_t room, size_t *needed);

/* A record of what the marker is made of, in the order in which it stands in the text: `and`,
 * `or`, `(` and `)` are a field each; a comparison is three, what stands left, the operator
 * (as `not in`), and what stands right. A quoted text has " before it, and neither its own
 * quotation marks; a variable has none. The slots differ. PYLOCK_EMPTY, PYLOCK_MEMORY. */
int32_t pylock_marker_tree(pylock_marker *marker, pylock_text *record);

/* The value of the marker in the environment. PYLOCK_EMPTY, PYLOCK_VALUE_*, PYLOCK_MEMORY. */
int32_t pylock_marker_evaluate(pylock_marker *marker, pylock_environment *environment,
                               bool *value);

/* The same where the operand `extra` has this text, as in a package's metadata (PEP
 * 685): what stands on its other side is compared with it as a name is.
 * PYLOCK_EMPTY, PYLOCK_NOT_UTF8, PYLOCK_VALUE_* but for PYLOCK_VALUE_EXTRA,
 * PYLOCK_MEMORY. */
int32_t pylock_marker_evaluate_with_extra(pylock_marker *marker,
                                          pylock_environment *environment,
                                          const uint8_t *extra, size_t extra_length,
                                          bool *value);

/* Whether in no coherent environment both markers are true. An environment is coherent if an
 * interpreter of Python may have it: there is a version that `python_full_version` spells, and
 * `python_version` its first two numbers, and a platform that `os_name`, `sys_platform` and
 * `platform_system` are of; any variable may be unset. `*answer` is one of enum pylock_answer;
 * of PYLOCK_NO `witness` is then such an environment, otherwise it stays. The slots differ, as
 * above. PYLOCK_EMPTY, PYLOCK_MEMORY. */
int32_t pylock_marker_is_disjoint(pylock_marker *first, pylock_marker *second,
                                  int32_t *answer, pylock_environment *witness);

/* The same: whether in no coherent environment `first` is true and `second` false. A marker that
 * has no value in an environment, as one that reads a variable that isn't set, is neither. */
int32_t pylock_marker_implies(pylock_marker *first, pylock_marker *second,
                              int32_t *answer, pylock_environment *witness);

/* The same of one marker: whether in no coherent environment it is true, or false. */
int32_t pylock_marker_is_never_true(pylock_marker *marker,
                                    int32_t *answer, pylock_environment *witness);
int32_t pylock_marker_is_never_false(pylock_marker *marker,
                                     int32_t *answer, pylock_environment *witness);

void pylock_marker_free(pylock_marker *marker);

/* An environment with nothing set and nothing asked for. PYLOCK_MEMORY. */
int32_t pylock_environment_new(pylock_environment *environment);

/* The variables of an environment file (JSON with the members "environment" and
 * "tags"), with nothing asked for; the tags are judged and left out.
 * PYLOCK_ENVIRONMENT_REFUSED: `words` is then the line that pylock prints, as
 * "environment\tshape\n"; otherwise `words` stays. PYLOCK_MEMORY. */
int32_t pylock_environment_read(pylock_environment *environment,
                                const uint8_t *json, size_t length, pylock_text *words);

/* The environment and the tags of a target (python as "3.12" or "3.13t", platform as
 * "manylinux_2_28_x86_64", "linux", "macos" or "windows") as the text of an environment
 * file, with LF at its end. PYLOCK_NOT_UTF8, PYLOCK_TARGET_*, PYLOCK_MEMORY. */
int32_t pylock_environment_target(const uint8_t *python, size_t python_length,
                                  const uint8_t *platform, size_t platform_length,
                                  pylock_text *text);

/* Gives a variable (as os_name) a text. PYLOCK_EMPTY, PYLOCK_NOT_UTF8,
 * PYLOCK_EDIT_VARIABLE, PYLOCK_MEMORY. */
int32_t pylock_environment_set(pylock_environment *environment,
                               const uint8_t *variable, size_t variable_length,
                               const uint8_t *text, size_t text_length);

/* Leaves a variable without a text. PYLOCK_EMPTY, PYLOCK_NOT_UTF8, PYLOCK_EDIT_VARIABLE. */
int32_t pylock_environment_unset(pylock_environment *environment,
                                 const uint8_t *variable, size_t length);

/* Ask for an extra or a dependency group, or no more. Any text counts by its normal
 * form. PYLOCK_EMPTY, PYLOCK_NOT_UTF8, PYLOCK_MEMORY. */
int32_t pylock_environment_add_extra(pylock_environment *environment,
                                     const uint8_t *name, size_t length);
int32_t pylock_environment_drop_extra(pylock_environment *environment,
                                      const uint8_t *name, size_t length);
int32_t pylock_environment_add_group(pylock_environment *environment,
                                     const uint8_t *name, size_t length);
int32_t pylock_environment_drop_group(pylock_environment *environment,
                                      const uint8_t *name, size_t length);

/* A record of an environment, in pairs of fields: the name of each variable that is set, and its
 * text; `extras` and the name of each extra that is asked for; `dependency_groups` and the name
 * of each group. Names are in normal form and in the order of their bytes. PYLOCK_EMPTY,
 * PYLOCK_MEMORY. */
int32_t pylock_environment_record(pylock_environment *environment, pylock_text *record);

void pylock_environment_free(pylock_environment *environment);

/* ---- a lock at once (PEP 751) ----
 *
 * `lock` has the bytes of a pylock.toml, `environment` those of an environment file.
 * `out` gets what the program pylock prints (docs/FORMATS.md), as lines or, where
 * `json` is true, as one JSON document; `status` what its status is:
 *   0  a plan; of pylock_files the list; of pylock_audit no finding
 *   1  a fault; of pylock_audit a finding
 *   2  the lock or the environment is refused, and `out` says by which words.
 * The only code beside PYLOCK_OK is PYLOCK_MEMORY. */
int32_t pylock_plan(const uint8_t *lock, size_t lock_length,
                    const uint8_t *environment, size_t environment_length,
                    bool json, pylock_text *out, int32_t *status);
int32_t pylock_explain(const uint8_t *lock, size_t lock_length,
                       const uint8_t *environment, size_t environment_length,
                       bool json, pylock_text *out, int32_t *status);
int32_t pylock_files(const uint8_t *lock, size_t length,
                     bool json, pylock_text *out, int32_t *status);
int32_t pylock_audit(const uint8_t *lock, size_t length,
                     bool json, pylock_text *out, int32_t *status);

/* What a lock says of itself: a JSON document with the members "requires_python",
 * left out where the lock has none, "environments" (the texts of markers), "extras",
 * "groups" and "default_groups". PYLOCK_LOCK_REFUSED: `words` is then the line that
 * pylock prints, as "lock\ttoml\n"; otherwise `words` stays. PYLOCK_MEMORY. */
int32_t pylock_lock_head(const uint8_t *lock, size_t length,
                         pylock_text *head, pylock_text *words);

/* Why a lock or an environment is refused, in a line for a person, without LF; it
 * begins with "lock:" or "environment:", a line and a column too where it can tell
 * them. An empty text where it isn't refused. PYLOCK_MEMORY. */
int32_t pylock_lock_message(const uint8_t *lock, size_t length, pylock_text *message);
int32_t pylock_environment_message(const uint8_t *json, size_t length, pylock_text *message);

/* ---- a session: a lock in an environment, edited and answered again ---- */

/* The session on the bytes of a pylock.toml and of an environment file.
 * PYLOCK_LOCK_REFUSED (judged first) and PYLOCK_ENVIRONMENT_REFUSED leave the session
 * as it was, and `words` is then the line that pylock prints, as
 * "lock\tentry\t3\tmarker\n"; otherwise `words` stays. PYLOCK_MEMORY. */
int32_t pylock_session_start(pylock_session *session,
                             const uint8_t *lock, size_t lock_length,
                             const uint8_t *environment, size_t environment_length,
                             pylock_text *words);

/* The same on a lock that is taken strictly, as `pylock plan --strict` takes it: where
 * pylock_audit finds in it what installers read differently (docs/FORMATS.md), the code
 * is PYLOCK_LOCK_FINDINGS, and `words` is then what pylock prints of these findings, as
 * "findings 1\n1\ta\tno-source\t-\n". It is judged behind the lock and before the
 * environment. `words` has lines or, where `json` is true, one JSON document, of a
 * refusal too. PYLOCK_LOCK_REFUSED, PYLOCK_ENVIRONMENT_REFUSED, PYLOCK_MEMORY. */
int32_t pylock_session_start_strict(pylock_session *session,
                                    const uint8_t *lock, size_t lock_length,
                                    const uint8_t *environment, size_t environment_length,
                                    bool json, pylock_text *words);

/* The edits. `*judged` is set to how many judgements the edit made; entries that share
 * a marker and a Python set may have them judged once, and all count. A refused edit
 * leaves the session as it was, and `*judged` too. Of several things that are wrong,
 * an empty slot is told first, then a text that isn't UTF-8.
 * All: PYLOCK_EMPTY, PYLOCK_NOT_UTF8 (of a text), PYLOCK_MEMORY. */

/* Gives a variable a text, or leaves it without one. PYLOCK_EDIT_VARIABLE. */
int32_t pylock_session_set(pylock_session *session,
                           const uint8_t *variable, size_t variable_length,
                           const uint8_t *text, size_t text_length, uint64_t *judged);
int32_t pylock_session_unset(pylock_session *session,
                             const uint8_t *variable, size_t length, uint64_t *judged);

/* Ask for an extra of the lock, or no more. It counts by its normal form.
 * PYLOCK_EDIT_EXTRA. */
int32_t pylock_session_add_extra(pylock_session *session,
                                 const uint8_t *name, size_t length, uint64_t *judged);
int32_t pylock_session_drop_extra(pylock_session *session,
                                  const uint8_t *name, size_t length, uint64_t *judged);

/* Ask for a dependency group of the lock, or no more. It counts by its normal form.
 * PYLOCK_EDIT_GROUP. */
int32_t pylock_session_add_group(pylock_session *session,
                                 const uint8_t *name, size_t length, uint64_t *judged);
int32_t pylock_session_drop_group(pylock_session *session,
                                  const uint8_t *name, size_t length, uint64_t *judged);

/* The same of several names as one edit: one text, with an LF between two and none at
 * the end; the empty text is no names. What reads extras, or groups, is judged once. The
 * edit is that of the names one after another, and the first of them that is refused is
 * the refusal. PYLOCK_EDIT_EXTRA, PYLOCK_EDIT_GROUP. */
int32_t pylock_session_add_extras(pylock_session *session,
                                  const uint8_t *names, size_t length, uint64_t *judged);
int32_t pylock_session_drop_extras(pylock_session *session,
                                   const uint8_t *names, size_t length, uint64_t *judged);
int32_t pylock_session_add_groups(pylock_session *session,
                                  const uint8_t *names, size_t length, uint64_t *judged);
int32_t pylock_session_drop_groups(pylock_session *session,
                                   const uint8_t *names, size_t length, uint64_t *judged);

/* Puts these tags in place of those that were there: one text, the best first, with
 * an LF between two and none at the end; the empty text is no tags. PYLOCK_EDIT_TAG. */
int32_t pylock_session_tags(pylock_session *session,
                            const uint8_t *tags, size_t length, uint64_t *judged);
/* The same of the tags of a target. PYLOCK_EDIT_ARGUMENT where it is none. */
int32_t pylock_session_target(pylock_session *session,
                              const uint8_t *python, size_t python_length,
                              const uint8_t *platform, size_t platform_length, uint64_t *judged);

/* Adds an entry behind all others, or puts one in place of that of a number: one
 * inline table of TOML, as { name = "a", version = "1" }. PYLOCK_EDIT_TOML,
 * PYLOCK_EDIT_ENTRY, and then add PYLOCK_EDIT_TOO_MANY, put PYLOCK_EDIT_NO_ENTRY. */
int32_t pylock_session_add(pylock_session *session,
                           const uint8_t *entry, size_t length, uint64_t *judged);
int32_t pylock_session_put(pylock_session *session, uint32_t number,
                           const uint8_t *entry, size_t length, uint64_t *judged);

/* Takes an entry out; its number is never used again. PYLOCK_EDIT_NO_ENTRY. */
int32_t pylock_session_del(pylock_session *session, uint32_t number, uint64_t *judged);

/* The files that a package may be installed from: "any", "wheel" (no sdist) or
 * "source" (no wheel). PYLOCK_EDIT_ARGUMENT (of the word, judged first),
 * PYLOCK_EDIT_NAME. */
int32_t pylock_session_policy(pylock_session *session,
                              const uint8_t *name, size_t name_length,
                              const uint8_t *policy, size_t policy_length, uint64_t *judged);
/* The same of several packages as one edit: their names as one text, with an LF between
 * two and none at the end; the empty text is no names. The entries of a name are judged
 * once. PYLOCK_EDIT_ARGUMENT (of the word, judged first), PYLOCK_EDIT_NAME. */
int32_t pylock_session_policies(pylock_session *session,
                                const uint8_t *names, size_t names_length,
                                const uint8_t *policy, size_t policy_length, uint64_t *judged);

/* One edit line, as `pylock select` reads it, without its LF; `show` edits nothing and
 * sets `*judged` to 0. Its length is judged before its UTF-8. PYLOCK_EDIT_*. */
int32_t pylock_session_line(pylock_session *session,
                            const uint8_t *line, size_t length, uint64_t *judged);

/* The answer on the session as it stands, as pylock_plan prints it; `*is_plan` is
 * whether it is a plan. PYLOCK_EMPTY, PYLOCK_MEMORY. */
int32_t pylock_session_answer(pylock_session *session, bool json,
                              pylock_text *out, bool *is_plan);

/* What becomes of the head and of each entry, as pylock_explain prints it.
 * PYLOCK_EMPTY, PYLOCK_MEMORY. */
int32_t pylock_session_explain(pylock_session *session, bool json,
                               pylock_text *out, bool *is_plan);

/* The answer on the session as it stands, for a program: lines of fields as in
 * docs/FORMATS.md. Of a plan a line for each pick: number; kind (vcs, directory,
 * editable, archive, wheel, sdist); the place of the wheel among the entry's wheels,
 * from 1; name; version; file; URL; path; type and commit of a VCS; subdirectory; and
 * then of each hash its algorithm and its value. Of a fault one line: number; name;
 * code; detail. What isn't there is absent. PYLOCK_EMPTY, PYLOCK_MEMORY. */
int32_t pylock_session_picks(pylock_session *session, pylock_text *out, bool *is_plan);

/* The numbers that the last accepted edit judged, or the start where there was
 * none: a record of numbers, the empty text where there is none; 0 is the head. An
 * entry may have taken what was found for another of one marker and Python set.
 * PYLOCK_EMPTY, PYLOCK_MEMORY. */
int32_t pylock_session_judged(pylock_session *session, pylock_text *numbers);

void pylock_session_free(pylock_session *session);

/* ---- the whole program ----
 *
 * JOINED TEXTS are their bytes, one text behind another, and an array of their lengths.
 * PYLOCK_PARTS says that the lengths don't add up. */

/* What the program pylock does with these words, of which the first is its name: with files
 * in memory, joined as a path and its bytes by turns, and a standard input, which is no
 * terminal. Of several files of one path the first is read, and any other path is that of a
 * missing file. `output` gets what it prints to standard output, `diagnostics` what it
 * prints to standard error, `status` its status. `select` takes the whole input at once.
 * PYLOCK_PARTS, PYLOCK_MEMORY. */
int32_t pylock_main(const size_t *word_lengths, size_t word_count,
                    const uint8_t *words, size_t words_length,
                    const size_t *file_lengths, size_t file_count,
                    const uint8_t *files, size_t files_length,
                    const uint8_t *input, size_t input_length,
                    pylock_text *output, pylock_text *diagnostics, int32_t *status);

/* What these words ask `select` for, as a record: the path of the lock; that of the
 * environment, or else, behind it, the Python and the platform of a target; then strict and
 * json, where that is asked for. Of other words the empty text. PYLOCK_PARTS,
 * PYLOCK_MEMORY. */
int32_t pylock_select_asked(const size_t *word_lengths, size_t word_count,
                            const uint8_t *words, size_t words_length, pylock_text *asked);

/* ---- a run: what `pylock select` prints, of an input that comes in pieces ----
 *
 * What the calls give one after another is what the program prints. `json` has to be the
 * same in all calls of a run. */

/* The run on a lock and an environment file; `output` gets its first answer, or the line of
 * a refusal, as `words` of pylock_session_start, and then the run stays.
 * PYLOCK_LOCK_REFUSED, PYLOCK_ENVIRONMENT_REFUSED, PYLOCK_MEMORY. */
int32_t pylock_run_start(pylock_run *run,
                         const uint8_t *lock, size_t lock_length,
                         const uint8_t *environment, size_t environment_length,
                         bool json, pylock_text *output);

/* The next bytes of the input: `output` gets what the lines print that end in them.
 * PYLOCK_EMPTY; PYLOCK_INPUT, PYLOCK_MEMORY, after which the run may only be freed. */
int32_t pylock_run_feed(pylock_run *run, bool json, const uint8_t *piece, size_t length,
                        pylock_text *output);

/* The end of the input: `output` gets what its last line prints, where that had no LF,
 * `status` the status of the program. The run is freed, also where the call is refused.
 * PYLOCK_EMPTY, PYLOCK_MEMORY. */
int32_t pylock_run_end(pylock_run *run, bool json, pylock_text *output, int32_t *status);

void pylock_run_free(pylock_run *run);

#ifdef __cplusplus
}
#endif

#endif
