/* Calls each function of the library for C: answers, refusals, buffers that are too small, empty
   slots, texts that are no UTF-8. With the word `edits` it makes edits of each kind in two sessions
   instead. The last line counts. With REFUSE_ALLOCATION (tools/check/allocations/refuse.c) a call may answer
   PYLOCK_MEMORY; it has changed nothing then, so it is made again. */
#include "pylock.h"

#include <stdio.h>
#include <stdlib.h>
#include <string.h>

static int passed, failed;
static bool may_refuse;

#define TEXT(text) (const uint8_t *)(text), strlen(text)

/* whether an allocation of the call was refused */
static bool gave_up(int32_t code)
{
    return may_refuse && code == PYLOCK_MEMORY;
}

static void is(int line, int32_t code, int32_t wanted)
{
    if (code == wanted) {
        passed++;
    } else {
        failed++;
        printf("line %d: code %d, not %d\n", line, (int)code, (int)wanted);
    }
}

static void holds(int line, bool what)
{
    if (what) {
        passed++;
    } else {
        failed++;
        printf("line %d: doesn't hold\n", line);
    }
}

#define IS(call, wanted) \
    do { \
        int32_t code = (call); \
        if (gave_up(code)) code = (call); \
        is(__LINE__, code, (wanted)); \
    } while (0)
#define HOLDS(what) holds(__LINE__, (what))

static bool same(const uint8_t *bytes, size_t length, const char *text)
{
    return length == strlen(text) && memcmp(bytes, text, length) == 0;
}

static void names(void)
{
    uint8_t out[16];
    size_t needed = 77;
    bool is_name = true;
    memset(out, '#', sizeof out);
    IS(pylock_name(TEXT("Foo__Bar"), out, sizeof out, &needed), PYLOCK_OK);
    HOLDS(same(out, needed, "foo-bar") && out[7] == '#');
    memset(out, '#', sizeof out);
    IS(pylock_name(TEXT("Foo__Bar"), out, 6, &needed), PYLOCK_ROOM);
    HOLDS(needed == 7 && out[0] == '#');
    IS(pylock_name(TEXT(""), out, 0, &needed), PYLOCK_OK);
    HOLDS(needed == 0);
    needed = 77;
    IS(pylock_name(TEXT("\xff"), out, sizeof out, &needed), PYLOCK_NOT_UTF8);
    HOLDS(needed == 77 && out[0] == '#');
    IS(pylock_is_name(TEXT("-a"), &is_name), PYLOCK_OK);
    HOLDS(!is_name);
    IS(pylock_is_name(TEXT("a-b"), &is_name), PYLOCK_OK);
    HOLDS(is_name);
    IS(pylock_is_name(TEXT("\xff"), &is_name), PYLOCK_NOT_UTF8);
    HOLDS(is_name);
}

/* how the keys of two versions compare: below 0, 0 or above */
static int keys(const char *version, const char *other)
{
    uint8_t key[64], other_key[64];
    size_t length = 0, other_length = 0;
    IS(pylock_version_key(TEXT(version), key, sizeof key, &length), PYLOCK_OK);
    IS(pylock_version_key(TEXT(other), other_key, sizeof other_key, &other_length), PYLOCK_OK);
    int order = memcmp(key, other_key, length < other_length ? length : other_length);
    return order ? order : (length > other_length) - (length < other_length);
}

static void version_keys(void)
{
    uint8_t out[16];
    size_t needed = 77;
    HOLDS(keys("1.0", "1.0.0") == 0);
    HOLDS(keys("v1.0-RC-1", "1rc1") == 0);
    HOLDS(keys("1.0.dev1", "1.0a1") < 0);
    HOLDS(keys("1.0a1.dev1", "1.0a1") < 0);
    HOLDS(keys("1.0rc2", "1.0") < 0);
    HOLDS(keys("1.0", "1.0+a") < 0);
    HOLDS(keys("1.0+a", "1.0+1") < 0);
    HOLDS(keys("1.0+1", "1.0.post0") < 0);
    HOLDS(keys("1.10", "1.9") > 0);
    HOLDS(keys("1.256", "1.255") > 0);
    HOLDS(keys("1!0", "99999999999999999999999999") > 0);
    memset(out, '#', sizeof out);
    IS(pylock_version_key(TEXT("1.0"), out, 3, &needed), PYLOCK_ROOM);
    HOLDS(needed > 3 && out[0] == '#');
    needed = 77;
    IS(pylock_version_key(TEXT("1.x"), out, sizeof out, &needed), PYLOCK_VERSION_SYNTAX);
    IS(pylock_version_key(TEXT("999999999999999999999999999999999999999999"), out, sizeof out,
                          &needed),
       PYLOCK_VERSION_NUMBER);
    IS(pylock_version_key(TEXT("\xff"), out, sizeof out, &needed), PYLOCK_NOT_UTF8);
    HOLDS(needed == 77 && out[0] == '#');
}

/* whether the record of the version's parts is this one */
static bool version_is(const char *version, const char *record)
{
    uint8_t out[256];
    size_t needed = 0;
    IS(pylock_version(TEXT(version), out, sizeof out, &needed), PYLOCK_OK);
    return same(out, needed, record);
}

static void versions(void)
{
    uint8_t out[32];
    size_t needed = 77;
    HOLDS(version_is("2", "2\t2\t2\t0\t2\t-\t-\t-\t-"));
    HOLDS(version_is(" V1!2.0.0-Alpha.3-7.DEV+Abc_01.x2 ",
                     "1!2.0.0a3.post7.dev0+abc.1.x2\t1!2.0.0a3.post7.dev0\t1!2.0.0\t1\t2.0.0\ta3"
                     "\t7\t0\tabc.1.x2"));
    HOLDS(version_is("1.0b2", "1.0b2\t1.0b2\t1.0\t0\t1.0\tb2\t-\t-\t-"));
    HOLDS(version_is("1.0c02.post", "1.0rc2.post0\t1.0rc2.post0\t1.0\t0\t1.0\trc2\t0\t-\t-"));
    HOLDS(version_is("0!340282366920938463463374607431768211455.dev1+5",
                     "340282366920938463463374607431768211455.dev1+5"
                     "\t340282366920938463463374607431768211455.dev1"
                     "\t340282366920938463463374607431768211455\t0"
                     "\t340282366920938463463374607431768211455\t-\t-\t1\t5"));
    memset(out, '#', sizeof out);
    IS(pylock_version(TEXT("2"), out, 16, &needed), PYLOCK_ROOM);
    HOLDS(needed == 17 && out[0] == '#');
    IS(pylock_version(TEXT("2"), out, 17, &needed), PYLOCK_OK);
    HOLDS(same(out, needed, "2\t2\t2\t0\t2\t-\t-\t-\t-") && out[17] == '#');
    needed = 77;
    memset(out, '#', sizeof out);
    IS(pylock_version(TEXT("2.-"), out, sizeof out, &needed), PYLOCK_VERSION_SYNTAX);
    IS(pylock_version(TEXT("340282366920938463463374607431768211456"), out, sizeof out, &needed),
       PYLOCK_VERSION_NUMBER);
    IS(pylock_version(TEXT("\xff"), out, sizeof out, &needed), PYLOCK_NOT_UTF8);
    HOLDS(needed == 77 && out[0] == '#');
}

/* whether the version has this kind: p a pre-release, q a post-release, d a development release, n
   the normal form, and a dot for what it isn't */
static bool kind_is(const char *version, const char *letters)
{
    uint8_t key[64], read[64];
    size_t length = 0, needed = 0;
    pylock_version_kind kind = {0};
    IS(pylock_version_key(TEXT(version), key, sizeof key, &length), PYLOCK_OK);
    IS(pylock_version_read(TEXT(version), read, sizeof read, &needed, &kind), PYLOCK_OK);
    return needed == length && memcmp(key, read, length) == 0 &&
           kind.is_prerelease == (letters[0] == 'p') &&
           kind.is_postrelease == (letters[1] == 'q') &&
           kind.is_devrelease == (letters[2] == 'd') && kind.is_normal == (letters[3] == 'n');
}

static void version_kinds(void)
{
    uint8_t out[64];
    size_t needed = 77;
    pylock_version_kind kind = {.is_postrelease = true};
    HOLDS(kind_is("1.0", "...n") && kind_is("01.0", "....") && kind_is(" 1.0", "...."));
    HOLDS(kind_is("1.0a1", "p..n") && kind_is("1.0alpha1", "p...") && kind_is("1.0RC1", "p..."));
    HOLDS(kind_is("1.0.dev3", "p.dn") && kind_is("1.0.post1", ".q.n") && kind_is("1.0-1", ".q.."));
    HOLDS(kind_is("1.0a2.post3.dev4", "pqdn") && kind_is("1!1.0+ubuntu.1", "...n"));
    HOLDS(kind_is("1.0+Ubuntu-1", "...."));
    memset(out, '#', sizeof out);
    IS(pylock_version_read(TEXT("1.0a"), out, 0, &needed, &kind), PYLOCK_ROOM);
    HOLDS(needed > 0 && needed < 77 && out[0] == '#' && kind.is_prerelease && !kind.is_postrelease);
    needed = 77;
    IS(pylock_version_read(TEXT("1.x"), out, sizeof out, &needed, &kind), PYLOCK_VERSION_SYNTAX);
    IS(pylock_version_read(TEXT("999999999999999999999999999999999999999999"), out, sizeof out,
                           &needed, &kind),
       PYLOCK_VERSION_NUMBER);
    IS(pylock_version_read(TEXT("\xff"), out, sizeof out, &needed, &kind), PYLOCK_NOT_UTF8);
    HOLDS(needed == 77 && out[0] == '#' && kind.is_prerelease);
}

static bool normal_is(const char *version, bool strip, const char *normal)
{
    uint8_t out[64];
    size_t needed = 0;
    IS(pylock_version_normal(TEXT(version), strip, out, sizeof out, &needed), PYLOCK_OK);
    return same(out, needed, normal);
}

static void normal_versions(void)
{
    uint8_t out[8];
    size_t needed = 77;
    HOLDS(normal_is("1.4.0.0.0", true, "1.4") && normal_is("1.4.0.0.0", false, "1.4.0.0.0"));
    HOLDS(normal_is("V1.0-Alpha_1", true, "1a1") && normal_is("V1.0-Alpha_1", false, "1.0a1"));
    HOLDS(normal_is("0.0", true, "0") && normal_is("0", true, "0") && normal_is("10", true, "10"));
    HOLDS(normal_is("1!1.0.1.0.post3.dev4+A.0", true, "1!1.0.1.post3.dev4+a.0"));
    memset(out, '#', sizeof out);
    IS(pylock_version_normal(TEXT("1.0.0"), true, out, 0, &needed), PYLOCK_ROOM);
    HOLDS(needed == 1 && out[0] == '#');
    IS(pylock_version_normal(TEXT("1.0.0"), true, out, 1, &needed), PYLOCK_OK);
    HOLDS(needed == 1 && out[0] == '1' && out[1] == '#');
    IS(pylock_version_normal(TEXT("1.x"), true, out, sizeof out, &needed), PYLOCK_VERSION_SYNTAX);
    IS(pylock_version_normal(TEXT("\xff"), false, out, sizeof out, &needed), PYLOCK_NOT_UTF8);
    HOLDS(needed == 1);
}

static void version_splits(void)
{
    uint64_t release[6] = {7, 7, 7, 7, 7, 7};
    size_t needed = 77;
    pylock_version_parts parts = {0};
    IS(pylock_version_split(TEXT("1!2.0rc3.post4.dev5+abc.1"), &parts, release, 6, &needed),
       PYLOCK_OK);
    HOLDS(needed == 4 && release[0] == 2 && !release[1] && !release[2] && !release[3] &&
          release[4] == 7);
    HOLDS(parts.base == strlen("1!2.0") && parts.public_end == strlen("1!2.0rc3.post4.dev5"));
    HOLDS(parts.epoch_low == 1 && parts.pre == 'r' && parts.pre_low == 3 && parts.has_post &&
          parts.post_low == 4 && parts.has_dev && parts.dev_low == 5);
    IS(pylock_version_split(TEXT("V1.02.3"), &parts, release, 5, &needed), PYLOCK_ROOM);
    HOLDS(needed == 6 && release[0] == 2 && parts.base == strlen("1.2.3") &&
          parts.public_end == parts.base && !parts.pre && !parts.has_post && !parts.has_dev &&
          !parts.epoch_low && !parts.pre_low && !parts.post_low && !parts.dev_low);
    /* 2^64 and 2^128 - 1 */
    IS(pylock_version_split(TEXT("18446744073709551616.340282366920938463463374607431768211455a"),
                            &parts, release, 6, &needed),
       PYLOCK_OK);
    HOLDS(needed == 4 && !release[0] && release[1] == 1 && release[2] == UINT64_MAX &&
          release[3] == UINT64_MAX && parts.pre == 'a' && !parts.pre_low && !parts.pre_high);
    IS(pylock_version_split(TEXT("1b18446744073709551617"), &parts, release, 6, &needed),
       PYLOCK_OK);
    HOLDS(parts.pre == 'b' && parts.pre_low == 1 && parts.pre_high == 1);
    needed = 77;
    IS(pylock_version_split(TEXT("1.x"), &parts, release, 6, &needed), PYLOCK_VERSION_SYNTAX);
    IS(pylock_version_split(TEXT("340282366920938463463374607431768211456"), &parts, release, 6,
                            &needed),
       PYLOCK_VERSION_NUMBER);
    IS(pylock_version_split(TEXT("\xff"), &parts, release, 6, &needed), PYLOCK_NOT_UTF8);
    HOLDS(needed == 77 && parts.pre == 'b');
}

static bool same_parts(const pylock_version_parts *one, const pylock_version_parts *other)
{
    return one->base == other->base && one->public_end == other->public_end &&
           one->epoch_low == other->epoch_low && one->epoch_high == other->epoch_high &&
           one->pre_low == other->pre_low && one->pre_high == other->pre_high &&
           one->post_low == other->post_low && one->post_high == other->post_high &&
           one->dev_low == other->dev_low && one->dev_high == other->dev_high &&
           one->pre == other->pre && one->has_post == other->has_post &&
           one->has_dev == other->has_dev;
}

/* whether one reading of the version tells what the two calls tell */
static bool whole_is(const char *version)
{
    uint8_t key[64], whole_key[64];
    uint64_t release[8], whole_release[8];
    size_t length = 0, whole_length = 0, count = 0, whole_count = 0;
    pylock_version_kind kind = {0}, whole_kind = {0};
    pylock_version_parts parts = {0}, whole_parts = {0};
    IS(pylock_version_read(TEXT(version), key, sizeof key, &length, &kind), PYLOCK_OK);
    IS(pylock_version_split(TEXT(version), &parts, release, 8, &count), PYLOCK_OK);
    IS(pylock_version_whole(TEXT(version), whole_key, sizeof whole_key, &whole_length, &whole_kind,
                            &whole_parts, whole_release, 8, &whole_count),
       PYLOCK_OK);
    return length == whole_length && memcmp(key, whole_key, length) == 0 && count == whole_count &&
           memcmp(release, whole_release, count * sizeof *release) == 0 &&
           memcmp(&kind, &whole_kind, sizeof kind) == 0 && same_parts(&parts, &whole_parts);
}

static void whole_versions(void)
{
    uint8_t key[64], other_key[64];
    uint64_t release[4] = {7, 7, 7, 7};
    size_t length = 77, other_length = 0, count = 77;
    pylock_version_kind kind = {0};
    pylock_version_parts parts = {0};
    HOLDS(whole_is("1.0") && whole_is("01.2") && whole_is("1!2.0rc3.post4.dev5+abc.1"));
    HOLDS(whole_is("1.0a1") && whole_is("1.0.post2") && whole_is("1.0.dev3") && whole_is("1+l"));
    HOLDS(whole_is("18446744073709551616!340282366920938463463374607431768211455.1"));
    /* no room for the key, room for the release */
    memset(key, '#', sizeof key);
    IS(pylock_version_whole(TEXT("1!2.0rc3"), key, 0, &length, &kind, &parts, release, 4, &count),
       PYLOCK_ROOM);
    HOLDS(length > 0 && length < 77 && key[0] == '#' && count == 4 && release[0] == 2 &&
          release[2] == 0 && kind.is_prerelease && kind.is_normal && !kind.is_postrelease);
    HOLDS(parts.base == strlen("1!2.0") && parts.public_end == strlen("1!2.0rc3") &&
          parts.epoch_low == 1 && parts.pre == 'r' && parts.pre_low == 3);
    /* room for the key, none for the release */
    IS(pylock_version_key(TEXT("3.4.5.post1+a"), other_key, sizeof other_key, &other_length),
       PYLOCK_OK);
    IS(pylock_version_whole(TEXT("3.4.5.post1+a"), key, sizeof key, &length, &kind, &parts, release,
                            4, &count),
       PYLOCK_ROOM);
    HOLDS(length == other_length && memcmp(key, other_key, length) == 0 && count == 6 &&
          release[0] == 2 && kind.is_postrelease && !kind.is_prerelease && kind.is_normal);
    HOLDS(parts.base == strlen("3.4.5") && parts.public_end == strlen("3.4.5.post1") &&
          !parts.epoch_low && !parts.pre && parts.has_post && parts.post_low == 1);
    /* none for either */
    memset(key, '#', sizeof key);
    IS(pylock_version_whole(TEXT("V6.0"), key, 1, &length, &kind, &parts, release, 3, &count),
       PYLOCK_ROOM);
    HOLDS(length > 1 && key[0] == '#' && count == 4 && release[0] == 2 && !kind.is_normal &&
          parts.base == strlen("6.0") && parts.public_end == parts.base && !parts.has_post);
    length = count = 77;
    IS(pylock_version_whole(TEXT("1.x"), key, sizeof key, &length, &kind, &parts, release, 4,
                            &count),
       PYLOCK_VERSION_SYNTAX);
    IS(pylock_version_whole(TEXT("340282366920938463463374607431768211456"), key, sizeof key,
                            &length, &kind, &parts, release, 4, &count),
       PYLOCK_VERSION_NUMBER);
    IS(pylock_version_whole(TEXT("\xff"), key, sizeof key, &length, &kind, &parts, release, 4,
                            &count),
       PYLOCK_NOT_UTF8);
    HOLDS(length == 77 && count == 77 && key[0] == '#' && release[0] == 2 &&
          parts.base == strlen("6.0"));
}

static void set_spans(void)
{
    static const char set[] = " , ~= 1.0,\t=== a-b ,!=2.*\n,,<3";
    static const char *const words[] = {"~=", "1.0", "===", "a-b", "!=", "2.*", "<", "3"};
    size_t spans[16], needed = 77;
    IS(pylock_set_spans(TEXT(set), spans, 16, &needed), PYLOCK_OK);
    HOLDS(needed == 16);
    for (size_t at = 0; at < 8; at++)
        HOLDS(same((const uint8_t *)set + spans[2 * at], spans[2 * at + 1] - spans[2 * at],
                   words[at]));
    spans[0] = 99;
    IS(pylock_set_spans(TEXT(set), spans, 15, &needed), PYLOCK_ROOM);
    HOLDS(needed == 16 && spans[0] == 99);
    IS(pylock_set_spans(TEXT(""), spans, 0, &needed), PYLOCK_OK);
    HOLDS(needed == 0);
    needed = 77;
    IS(pylock_set_spans(TEXT("1.0"), spans, 16, &needed), PYLOCK_SET_SYNTAX);
    IS(pylock_set_spans(TEXT(">=999999999999999999999999999999999999999999"), spans, 16, &needed),
       PYLOCK_SET_NUMBER);
    IS(pylock_set_spans(TEXT("\xff"), spans, 16, &needed), PYLOCK_NOT_UTF8);
    HOLDS(needed == 77 && spans[0] == 99);
}

/* the bytes of a kept text */
static bool has(pylock_text *text, const char *wanted)
{
    uint8_t out[512];
    size_t needed = 0, length = 0;
    return pylock_text_length(text, &length) == PYLOCK_OK && length == strlen(wanted) &&
           pylock_text_copy(text, out, sizeof out, &needed) == PYLOCK_OK &&
           same(out, needed, wanted);
}

static void texts(void)
{
    pylock_text text = {0};
    uint8_t out[16];
    size_t needed = 77;
    memset(out, '#', sizeof out);
    IS(pylock_text_length(&text, &needed), PYLOCK_EMPTY);
    IS(pylock_text_copy(&text, out, sizeof out, &needed), PYLOCK_EMPTY);
    HOLDS(needed == 77);
    pylock_text_free(&text);
    IS(pylock_requirement(TEXT("a"), &text), PYLOCK_OK);
    IS(pylock_text_copy(&text, out, 8, &needed), PYLOCK_ROOM);
    HOLDS(needed == 9 && out[0] == '#');
    IS(pylock_text_copy(&text, out, 9, &needed), PYLOCK_OK);
    HOLDS(same(out, needed, "a\t-\t-\t-\t-") && out[9] == '#');
    pylock_text_free(&text);
    HOLDS(!text.full && !text.kept);
    IS(pylock_text_length(&text, &needed), PYLOCK_EMPTY);
}

static void requirements(void)
{
    pylock_text record = {0};
    IS(pylock_requirement(TEXT("-"), &record), PYLOCK_REQUIREMENT_NAME);
    HOLDS(!record.full);
    IS(pylock_requirement(TEXT("Foo_Bar [B, a,B] >= 1.0, != 2 ; os_name == '\t'"), &record),
       PYLOCK_OK);
    HOLDS(has(&record, "Foo_Bar\tB,a,B\t>=1.0,!=2\t-\tos_name == '\\t'"));
    IS(pylock_requirement(TEXT("a @ b\\c"), &record), PYLOCK_OK);
    HOLDS(has(&record, "a\t-\t-\tb\\\\c\t-"));
    IS(pylock_requirement(TEXT("a[]"), &record), PYLOCK_OK);
    HOLDS(has(&record, "a\t-\t-\t-\t-"));
    IS(pylock_requirement(TEXT("a @ - ;os_name=='x'"), &record), PYLOCK_OK);
    HOLDS(has(&record, "a\t-\t-\t\\-\tos_name=='x'"));
    IS(pylock_requirement(TEXT("a[-]"), &record), PYLOCK_REQUIREMENT_EXTRAS);
    IS(pylock_requirement(TEXT("a 1"), &record), PYLOCK_REQUIREMENT_SPECIFIER);
    IS(pylock_requirement(TEXT("a @ "), &record), PYLOCK_REQUIREMENT_URL);
    IS(pylock_requirement(TEXT("a; x"), &record), PYLOCK_REQUIREMENT_MARKER);
    IS(pylock_requirement(TEXT("a @ b c"), &record), PYLOCK_REQUIREMENT_TRAILING);
    IS(pylock_requirement(TEXT("a\xff"), &record), PYLOCK_NOT_UTF8);
    HOLDS(has(&record, "a\t-\t-\t\\-\tos_name=='x'"));
    pylock_text_free(&record);
}

static void written_sets(void)
{
    uint8_t out[32];
    size_t needed = 77;
    memset(out, '#', sizeof out);
    IS(pylock_requirement_set(TEXT("a (>= 1.0,!=2 ); os_name == 'x'"), out, sizeof out, &needed), PYLOCK_OK);
    HOLDS(same(out, needed, ">= 1.0,!=2 ") && out[11] == '#');
    memset(out, '#', sizeof out);
    IS(pylock_requirement_set(TEXT("a[b] >=1 , <2"), out, 7, &needed), PYLOCK_ROOM);
    HOLDS(needed == 8 && out[0] == '#');
    IS(pylock_requirement_set(TEXT("a @ https://h/p.zip"), out, sizeof out, &needed), PYLOCK_OK);
    HOLDS(needed == 0);
    IS(pylock_requirement_set(TEXT("a"), out, sizeof out, &needed), PYLOCK_OK);
    HOLDS(needed == 0);
    IS(pylock_requirement_set(TEXT("-"), out, sizeof out, &needed), PYLOCK_REQUIREMENT_NAME);
    IS(pylock_requirement_set(TEXT("a[-]"), out, sizeof out, &needed), PYLOCK_REQUIREMENT_EXTRAS);
    IS(pylock_requirement_set(TEXT("a (>=1"), out, sizeof out, &needed), PYLOCK_REQUIREMENT_SPECIFIER);
    IS(pylock_requirement_set(TEXT("a\xff"), out, sizeof out, &needed), PYLOCK_NOT_UTF8);
    HOLDS(needed == 0);
}

static void expected(void)
{
    pylock_text record = {0};
    IS(pylock_requirement_expected(TEXT("a\xff"), &record), PYLOCK_NOT_UTF8);
    HOLDS(!record.full);
    IS(pylock_requirement_expected(TEXT("a (>=1 b)"), &record), PYLOCK_OK);
    HOLDS(has(&record, "2\t7\tExpected matching RIGHT_PARENTHESIS for LEFT_PARENTHESIS, after version specifier\t"
                       "    a (>=1 b)\\n      ~~~~~^"));
    IS(pylock_requirement_expected(TEXT("a"), &record), PYLOCK_OK);
    HOLDS(has(&record, ""));
    IS(pylock_marker_expected(TEXT("os_name == 'x' foo"), &record), PYLOCK_OK);
    HOLDS(has(&record, "15\t15\tExpected end of marker expression\t    os_name == 'x' foo\\n"
                       "                   ^"));
    IS(pylock_set_expected(TEXT(">=1,<2.*"), &record), PYLOCK_OK);
    HOLDS(has(&record, "4\t7\t.* suffix can only be used with `==` or `!=` operators\t"
                       "    >=1,<2.*\\n        ~~~^"));
    IS(pylock_specifier_expected(TEXT(">=1,<2"), &record), PYLOCK_OK);
    HOLDS(has(&record, "0\t3\tExpected end of version specifier\t    >=1,<2\\n    ~~~^"));
    pylock_text_free(&record);
}

static void sdists(void)
{
    pylock_text record = {0};
    IS(pylock_sdist(TEXT("Foo.bar-V1.0.tar.gz"), &record), PYLOCK_OK);
    HOLDS(has(&record, "foo-bar\t1.0"));
    IS(pylock_sdist(TEXT("a-1.whl"), &record), PYLOCK_SDIST_EXTENSION);
    IS(pylock_sdist(TEXT("a.tar.gz"), &record), PYLOCK_SDIST_PARTS);
    IS(pylock_sdist(TEXT("-1.zip"), &record), PYLOCK_SDIST_NAME);
    IS(pylock_sdist(TEXT("a-x.zip"), &record), PYLOCK_SDIST_VERSION);
    IS(pylock_sdist(TEXT("a\xff"), &record), PYLOCK_NOT_UTF8);
    HOLDS(has(&record, "foo-bar\t1.0"));
    IS(pylock_sdist(TEXT("foo-1.0-1.zip"), &record), PYLOCK_OK);
    HOLDS(has(&record, "foo-1-0\t1"));
    pylock_text_free(&record);
}

static void wheels(void)
{
    pylock_text record = {0};
    IS(pylock_wheel(TEXT("Foo_bar-1.0.0-1b-py2.PY3-none-any.whl"), &record), PYLOCK_OK);
    HOLDS(has(&record, "Foo_bar\t1.0.0\t1b\tpy2-none-any py3-none-any"));
    IS(pylock_wheel(TEXT("a-1_0-cp312-abi3-win32.whl"), &record), PYLOCK_WHEEL_VERSION);
    IS(pylock_wheel(TEXT("a-1.0+X_2-cp312-abi3-win32.whl"), &record), PYLOCK_OK);
    HOLDS(has(&record, "a\t1.0+x.2\t-\tcp312-abi3-win32"));
    IS(pylock_wheel(TEXT("a-1-py3-none-any.zip"), &record), PYLOCK_WHEEL_EXTENSION);
    IS(pylock_wheel(TEXT("a-1-py3-none.whl"), &record), PYLOCK_WHEEL_PARTS);
    IS(pylock_wheel(TEXT("a__b-1-py3-none-any.whl"), &record), PYLOCK_WHEEL_NAME);
    IS(pylock_wheel(TEXT("a-1-x-py3-none-any.whl"), &record), PYLOCK_WHEEL_BUILD);
    IS(pylock_wheel(TEXT("a-1-py3-none-.whl"), &record), PYLOCK_WHEEL_TAGS);
    IS(pylock_wheel(TEXT("a\xff"), &record), PYLOCK_NOT_UTF8);
    HOLDS(has(&record, "a\t1.0+x.2\t-\tcp312-abi3-win32"));
    pylock_text_free(&record);
}

static void wheel_parts(void)
{
    pylock_text record = {0};
    IS(pylock_wheel_parts(TEXT("Foo_bar-1.0.0-012b-py2.PY3-none-any.whl"), &record), PYLOCK_OK);
    HOLDS(has(&record, "foo-bar\t1.0.0\t12\tb\tpy2-none-any\tpy3-none-any"));
    IS(pylock_wheel_parts(TEXT("a-1-7-py3-none-any.whl"), &record), PYLOCK_OK);
    HOLDS(has(&record, "a\t1\t7\t\tpy3-none-any"));
    IS(pylock_wheel_parts(TEXT("a-1.0+X_2-cp312-abi3-win32.whl"), &record), PYLOCK_OK);
    HOLDS(has(&record, "a\t1.0+x.2\t-\t-\tcp312-abi3-win32"));
    IS(pylock_wheel_parts(TEXT("a-1-py3-none.whl"), &record), PYLOCK_WHEEL_PARTS);
    IS(pylock_wheel_parts(TEXT("a\xff"), &record), PYLOCK_NOT_UTF8);
    HOLDS(has(&record, "a\t1.0+x.2\t-\t-\tcp312-abi3-win32"));
    pylock_text_free(&record);
}

static void tags(void)
{
    pylock_text record = {0};
    IS(pylock_tags(TEXT("py2.py3-none-any"), &record), PYLOCK_OK);
    HOLDS(has(&record, "py2-none-any\tpy3-none-any"));
    IS(pylock_tags(TEXT("cp33.cp34-abi3.none-linux_x86_64.any"), &record), PYLOCK_OK);
    HOLDS(has(&record, "cp33-abi3-linux_x86_64\tcp33-abi3-any\tcp33-none-linux_x86_64"
                       "\tcp33-none-any\tcp34-abi3-linux_x86_64\tcp34-abi3-any\tcp34-none-linux_x86_64"
                       "\tcp34-none-any"));
    IS(pylock_tags(TEXT("--"), &record), PYLOCK_OK);
    HOLDS(has(&record, "--"));
    IS(pylock_tags(TEXT("CP3\t-\\-a"), &record), PYLOCK_OK);
    HOLDS(has(&record, "CP3\\t-\\\\-a"));
    IS(pylock_tags(TEXT("a-b"), &record), PYLOCK_TAG_PARTS);
    IS(pylock_tags(TEXT("a-b-c-d"), &record), PYLOCK_TAG_PARTS);
    IS(pylock_tags(TEXT(""), &record), PYLOCK_TAG_PARTS);
    IS(pylock_tags(TEXT("a-b-\xff"), &record), PYLOCK_NOT_UTF8);
    HOLDS(has(&record, "CP3\\t-\\\\-a"));
    pylock_text_free(&record);
}

static void sets(void)
{
    pylock_set set = {0};
    uint8_t out[64];
    size_t needed = 0;
    bool admits = false;
    IS(pylock_admits(TEXT(">=2.8.1, ==2.8.*"), TEXT("2.8.3"), &admits), PYLOCK_OK);
    HOLDS(admits);
    IS(pylock_admits(TEXT("2"), TEXT("x"), &admits), PYLOCK_SET_SYNTAX);
    IS(pylock_admits(TEXT(">=1"), TEXT("x"), &admits), PYLOCK_VERSION_SYNTAX);
    IS(pylock_admits(TEXT(">=1"), TEXT("999999999999999999999999999999999999999999"), &admits),
       PYLOCK_VERSION_NUMBER);
    IS(pylock_admits(TEXT(">=999999999999999999999999999999999999999999"), TEXT("1"), &admits),
       PYLOCK_SET_NUMBER);
    IS(pylock_admits(TEXT("\xff"), TEXT("1"), &admits), PYLOCK_NOT_UTF8);
    HOLDS(admits);
    IS(pylock_set_text(&set, out, sizeof out, &needed), PYLOCK_EMPTY);
    IS(pylock_set_admits(&set, TEXT("1"), &admits), PYLOCK_EMPTY);
    pylock_set_free(&set);
    IS(pylock_set_parse(&set, TEXT("<1")), PYLOCK_OK);
    IS(pylock_set_parse(&set, TEXT(" >= 1.0, != 2")), PYLOCK_OK);
    IS(pylock_set_parse(&set, TEXT("nonsense")), PYLOCK_SET_SYNTAX);
    IS(pylock_set_text(&set, out, sizeof out, &needed), PYLOCK_OK);
    HOLDS(same(out, needed, ">=1.0,!=2"));
    IS(pylock_set_text(&set, out, 0, &needed), PYLOCK_ROOM);
    HOLDS(needed == 9);
    IS(pylock_set_admits(&set, TEXT("2"), &admits), PYLOCK_OK);
    HOLDS(!admits);
    IS(pylock_set_admits(&set, TEXT("3"), &admits), PYLOCK_OK);
    HOLDS(admits);
    pylock_set_free(&set);
    HOLDS(!set.full && !set.kept);
    IS(pylock_set_admits(&set, TEXT("3"), &admits), PYLOCK_EMPTY);
}

typedef int32_t (*set_call)(pylock_set *first, pylock_set *second, int32_t *answer,
                            pylock_text *witness);

/* What a call answers on two sets; 77 where it is refused. */
static int32_t asked_of_sets(set_call call, const char *first, const char *second,
                             pylock_text *witness)
{
    pylock_set one = {0}, other = {0};
    int32_t answer = 77;
    IS(pylock_set_parse(&one, TEXT(first)), PYLOCK_OK);
    IS(pylock_set_parse(&other, TEXT(second)), PYLOCK_OK);
    IS(call(&one, &other, &answer, witness), PYLOCK_OK);
    HOLDS(one.full && other.full);
    pylock_set_free(&one);
    pylock_set_free(&other);
    return answer;
}

/* whether the kept text is a version, which a set is to admit or not */
static bool shows(pylock_text *witness, const char *set, bool is_admitted)
{
    uint8_t out[64];
    size_t needed = 0;
    bool admits = !is_admitted;
    IS(pylock_text_copy(witness, out, sizeof out, &needed), PYLOCK_OK);
    IS(pylock_admits(TEXT(set), out, needed, &admits), PYLOCK_OK);
    return admits == is_admitted;
}

static void asked_sets(void)
{
    pylock_set set = {0}, other = {0};
    pylock_text witness = {0};
    int32_t answer = 77;
    IS(pylock_set_is_subset(&set, &other, &answer, &witness), PYLOCK_EMPTY);
    IS(pylock_set_parse(&set, TEXT(">=2,<1")), PYLOCK_OK);
    IS(pylock_set_is_subset(&set, &other, &answer, &witness), PYLOCK_EMPTY);
    IS(pylock_set_is_disjoint(&other, &set, &answer, &witness), PYLOCK_EMPTY);
    IS(pylock_set_is_unsatisfiable(&other, &answer, &witness), PYLOCK_EMPTY);
    HOLDS(answer == 77 && !witness.full);
    IS(pylock_set_is_unsatisfiable(&set, &answer, &witness), PYLOCK_OK);
    HOLDS(answer == PYLOCK_YES && !witness.full);
    IS(pylock_set_parse(&set, TEXT(">=1,<2")), PYLOCK_OK);
    IS(pylock_set_is_unsatisfiable(&set, &answer, &witness), PYLOCK_OK);
    HOLDS(answer == PYLOCK_NO && shows(&witness, ">=1,<2", true));
    IS(pylock_set_parse(&set, TEXT("===a,===b")), PYLOCK_OK);
    IS(pylock_set_is_unsatisfiable(&set, &answer, &witness), PYLOCK_OK);
    HOLDS(answer == PYLOCK_UNDECIDED && shows(&witness, ">=1,<2", true));
    pylock_set_free(&set);
    HOLDS(asked_of_sets(pylock_set_is_subset, "==1.4.*", ">=1,<2", &witness) == PYLOCK_YES);
    HOLDS(shows(&witness, ">=1,<2", true));
    HOLDS(asked_of_sets(pylock_set_is_subset, ">=1,<3", ">=1,<2", &witness) == PYLOCK_NO);
    HOLDS(shows(&witness, ">=1,<3", true) && shows(&witness, ">=1,<2", false));
    HOLDS(asked_of_sets(pylock_set_is_disjoint, "<2", ">=2", &witness) == PYLOCK_YES);
    HOLDS(asked_of_sets(pylock_set_is_disjoint, "<=2", ">=2", &witness) == PYLOCK_NO);
    HOLDS(shows(&witness, "<=2", true) && shows(&witness, ">=2", true));
    pylock_text_free(&witness);
}

static void markers(void)
{
    pylock_marker marker = {0};
    pylock_environment environment = {0};
    uint8_t out[64];
    size_t needed = 0;
    bool value = false;
    IS(pylock_marker_evaluate(&marker, &environment, &value), PYLOCK_EMPTY);
    IS(pylock_marker_parse(&marker, TEXT("os_name")), PYLOCK_MARKER_SYNTAX);
    IS(pylock_marker_parse(&marker, TEXT("extras == 'a'")), PYLOCK_MARKER_SET_MISUSE);
    IS(pylock_marker_parse(&marker, TEXT(" os_name == 'posix' and 'Sci-Ence' in extras ")), PYLOCK_OK);
    IS(pylock_marker_text(&marker, out, sizeof out, &needed), PYLOCK_OK);
    HOLDS(same(out, needed, "os_name == 'posix' and 'Sci-Ence' in extras"));
    IS(pylock_marker_evaluate(&marker, &environment, &value), PYLOCK_EMPTY);
    IS(pylock_environment_set(&environment, TEXT("os_name"), TEXT("posix")), PYLOCK_EMPTY);
    IS(pylock_environment_new(&environment), PYLOCK_OK);
    IS(pylock_marker_evaluate(&marker, &environment, &value), PYLOCK_VALUE_UNSET);
    IS(pylock_environment_set(&environment, TEXT("os"), TEXT("posix")), PYLOCK_EDIT_VARIABLE);
    IS(pylock_environment_set(&environment, TEXT("os_name"), TEXT("\xff")), PYLOCK_NOT_UTF8);
    IS(pylock_environment_set(&environment, TEXT("os"), TEXT("\xff")), PYLOCK_NOT_UTF8);
    IS(pylock_environment_set(&environment, TEXT("os_name"), TEXT("posix")), PYLOCK_OK);
    IS(pylock_marker_evaluate(&marker, &environment, &value), PYLOCK_OK);
    HOLDS(!value);
    IS(pylock_environment_add_extra(&environment, TEXT("sci_ence")), PYLOCK_OK);
    IS(pylock_marker_evaluate(&marker, &environment, &value), PYLOCK_OK);
    HOLDS(value);
    IS(pylock_environment_drop_extra(&environment, TEXT("SCI.ENCE")), PYLOCK_OK);
    IS(pylock_marker_evaluate(&marker, &environment, &value), PYLOCK_OK);
    HOLDS(!value);
    IS(pylock_environment_unset(&environment, TEXT("os_name")), PYLOCK_OK);
    IS(pylock_marker_evaluate(&marker, &environment, &value), PYLOCK_VALUE_UNSET);
    IS(pylock_marker_parse(&marker, TEXT("'docs' in dependency_groups")), PYLOCK_OK);
    IS(pylock_environment_add_group(&environment, TEXT("Docs")), PYLOCK_OK);
    IS(pylock_marker_evaluate(&marker, &environment, &value), PYLOCK_OK);
    HOLDS(value);
    IS(pylock_environment_drop_group(&environment, TEXT("docs")), PYLOCK_OK);
    IS(pylock_marker_evaluate(&marker, &environment, &value), PYLOCK_OK);
    HOLDS(!value);
    pylock_marker_free(&marker);
    pylock_environment_free(&environment);
    pylock_environment_free(&environment);
}

static void marker_trees(void)
{
    pylock_marker marker = {0};
    pylock_text record = {0};
    IS(pylock_marker_tree(&marker, &record), PYLOCK_EMPTY);
    HOLDS(!record.full);
    IS(pylock_marker_parse(&marker, TEXT(" os_name=='posix' ")), PYLOCK_OK);
    IS(pylock_marker_tree(&marker, &record), PYLOCK_OK);
    HOLDS(has(&record, "os_name\t==\t\"posix"));
    IS(pylock_marker_parse(&marker,
                           TEXT("('' ~= \"-\" or (extra===\"it's\")) and 'a\tb' not  in extras"
                                " and 'd' in dependency_groups or python_version<'3'")),
       PYLOCK_OK);
    IS(pylock_marker_tree(&marker, &record), PYLOCK_OK);
    HOLDS(has(&record, "(\t\"\t~=\t\"-\tor\t(\textra\t===\t\"it's\t)\t)\tand\t\"a\\tb\tnot in\textras"
                       "\tand\t\"d\tin\tdependency_groups\tor\tpython_version\t<\t\"3"));
    pylock_marker_free(&marker);
    IS(pylock_marker_tree(&marker, &record), PYLOCK_EMPTY);
    HOLDS(record.full);
    pylock_text_free(&record);
}

static void extras(void)
{
    pylock_marker marker = {0};
    pylock_environment environment = {0};
    bool value = true;
    IS(pylock_marker_evaluate_with_extra(&marker, &environment, TEXT("\xff"), &value),
       PYLOCK_EMPTY);
    IS(pylock_marker_parse(&marker, TEXT("extra == 'Sci-Ence'")), PYLOCK_OK);
    IS(pylock_marker_evaluate_with_extra(&marker, &environment, TEXT("x"), &value), PYLOCK_EMPTY);
    IS(pylock_environment_new(&environment), PYLOCK_OK);
    IS(pylock_marker_evaluate(&marker, &environment, &value), PYLOCK_VALUE_EXTRA);
    IS(pylock_marker_evaluate_with_extra(&marker, &environment, TEXT("\xff"), &value),
       PYLOCK_NOT_UTF8);
    HOLDS(value);
    IS(pylock_marker_evaluate_with_extra(&marker, &environment, TEXT(""), &value), PYLOCK_OK);
    HOLDS(!value);
    IS(pylock_marker_evaluate_with_extra(&marker, &environment, TEXT("sci.ence"), &value),
       PYLOCK_OK);
    HOLDS(value);
    IS(pylock_marker_parse(&marker, TEXT("extra < 'a'")), PYLOCK_OK);
    IS(pylock_marker_evaluate_with_extra(&marker, &environment, TEXT("b"), &value),
       PYLOCK_VALUE_UNDEFINED);
    IS(pylock_marker_parse(&marker, TEXT("extra == 'a' or os_name == 'posix'")), PYLOCK_OK);
    IS(pylock_marker_evaluate_with_extra(&marker, &environment, TEXT("a"), &value),
       PYLOCK_VALUE_UNSET);
    IS(pylock_marker_parse(&marker,
                           TEXT("python_version > '999999999999999999999999999999999999999'")),
       PYLOCK_OK);
    IS(pylock_environment_set(&environment, TEXT("python_version"), TEXT("3.12")), PYLOCK_OK);
    IS(pylock_marker_evaluate_with_extra(&marker, &environment, TEXT("a"), &value),
       PYLOCK_VALUE_NUMBER);
    HOLDS(value);
    pylock_marker_free(&marker);
    pylock_environment_free(&environment);
}

typedef int32_t (*marker_call)(pylock_marker *first, pylock_marker *second, int32_t *answer,
                               pylock_environment *witness);

/* What a call answers on two markers; 77 where it is refused. */
static int32_t asked_of_markers(marker_call call, const char *first, const char *second,
                                pylock_environment *witness)
{
    pylock_marker one = {0}, other = {0};
    int32_t answer = 77;
    IS(pylock_marker_parse(&one, TEXT(first)), PYLOCK_OK);
    IS(pylock_marker_parse(&other, TEXT(second)), PYLOCK_OK);
    IS(call(&one, &other, &answer, witness), PYLOCK_OK);
    HOLDS(one.full && other.full);
    pylock_marker_free(&one);
    pylock_marker_free(&other);
    return answer;
}

/* whether the marker has the value in the environment */
static bool has_value(pylock_environment *environment, const char *text, bool wanted)
{
    pylock_marker marker = {0};
    bool value = !wanted;
    IS(pylock_marker_parse(&marker, TEXT(text)), PYLOCK_OK);
    IS(pylock_marker_evaluate(&marker, environment, &value), PYLOCK_OK);
    pylock_marker_free(&marker);
    return value == wanted;
}

static void asked_markers(void)
{
    static const char early[] = "python_version < '3.10'", late[] = "python_full_version >= '3.12'";
    static const char docs[] = "'Docs' in extras";
    pylock_marker marker = {0}, other = {0};
    pylock_environment witness = {0};
    int32_t answer = 77;
    IS(pylock_marker_implies(&marker, &other, &answer, &witness), PYLOCK_EMPTY);
    IS(pylock_marker_parse(&marker, TEXT("os_name == 'nt' or os_name != 'nt'")), PYLOCK_OK);
    IS(pylock_marker_implies(&marker, &other, &answer, &witness), PYLOCK_EMPTY);
    IS(pylock_marker_is_disjoint(&other, &marker, &answer, &witness), PYLOCK_EMPTY);
    IS(pylock_marker_is_never_true(&other, &answer, &witness), PYLOCK_EMPTY);
    IS(pylock_marker_is_never_false(&other, &answer, &witness), PYLOCK_EMPTY);
    HOLDS(answer == 77 && !witness.full);
    IS(pylock_marker_is_never_false(&marker, &answer, &witness), PYLOCK_OK);
    HOLDS(answer == PYLOCK_YES && !witness.full);
    IS(pylock_marker_is_never_true(&marker, &answer, &witness), PYLOCK_OK);
    HOLDS(answer == PYLOCK_NO && has_value(&witness, "os_name == 'nt' or os_name != 'nt'", true));
    IS(pylock_marker_parse(&marker, TEXT("os_name == 'nt' and sys_platform == 'linux'")), PYLOCK_OK);
    IS(pylock_marker_is_never_true(&marker, &answer, &witness), PYLOCK_OK);
    HOLDS(answer == PYLOCK_YES && witness.full);
    IS(pylock_marker_is_never_false(&marker, &answer, &witness), PYLOCK_OK);
    HOLDS(answer == PYLOCK_NO &&
          has_value(&witness, "os_name == 'nt' and sys_platform == 'linux'", false));
    pylock_marker_free(&marker);
    HOLDS(asked_of_markers(pylock_marker_is_disjoint, early, late, &witness) == PYLOCK_YES);
    HOLDS(asked_of_markers(pylock_marker_implies, late, "python_version > '3.10'", &witness) ==
          PYLOCK_YES);
    HOLDS(asked_of_markers(pylock_marker_is_disjoint, late, docs, &witness) == PYLOCK_NO);
    HOLDS(has_value(&witness, late, true) && has_value(&witness, docs, true));
    HOLDS(asked_of_markers(pylock_marker_implies, docs, early, &witness) == PYLOCK_NO);
    HOLDS(has_value(&witness, docs, true) && has_value(&witness, early, false));
    pylock_environment_free(&witness);
}

static void environment_records(void)
{
    pylock_environment environment = {0};
    pylock_text record = {0};
    IS(pylock_environment_record(&environment, &record), PYLOCK_EMPTY);
    HOLDS(!record.full);
    IS(pylock_environment_new(&environment), PYLOCK_OK);
    IS(pylock_environment_record(&environment, &record), PYLOCK_OK);
    HOLDS(has(&record, ""));
    IS(pylock_environment_add_group(&environment, TEXT("Docs")), PYLOCK_OK);
    IS(pylock_environment_add_extra(&environment, TEXT("b")), PYLOCK_OK);
    IS(pylock_environment_add_extra(&environment, TEXT("A_a")), PYLOCK_OK);
    IS(pylock_environment_set(&environment, TEXT("python_version"), TEXT("-")), PYLOCK_OK);
    IS(pylock_environment_set(&environment, TEXT("os_name"), TEXT("a\tb")), PYLOCK_OK);
    IS(pylock_environment_set(&environment, TEXT("platform_release"), TEXT("")), PYLOCK_OK);
    IS(pylock_environment_record(&environment, &record), PYLOCK_OK);
    HOLDS(has(&record, "os_name\ta\\tb\tplatform_release\t\tpython_version\t\\-"
                       "\textras\ta-a\textras\tb\tdependency_groups\tdocs"));
    pylock_environment_free(&environment);
    IS(pylock_environment_record(&environment, &record), PYLOCK_EMPTY);
    HOLDS(record.full);
    pylock_text_free(&record);
}

static const char LOCK[] = "lock-version = \"1.0\"\ncreated-by = \"me\"\nextras = [\"A_b\"]\n"
                           "requires-python = \">= 3.8\"\n"
                           "[[packages]]\nname = \"a\"\ndirectory = {path = \"a\"}\n"
                           "[[packages]]\nname = \"b\"\nmarker = \"os_name == 'nt'\"\n"
                           "directory = {path = \"b\"}\n";
static const char POSIX[] = "{\"environment\": {\"os_name\": \"posix\", \"python_full_version\": "
                            "\"3.12.1\"}, \"tags\": []}";

static const char PICKED[] =
    "lock-version = \"1.0\"\ncreated-by = \"me\"\n"
    "packages = [\n"
    "{name = \"a\", version = \"1\", wheels = [\n"
    "{url = \"https://x/a-1-cp313-cp313-win32.whl\", hashes = {sha256 = \"aa\"}},\n"
    "{url = \"https://x/a-1-py3-none-any.whl\", path = \"w/a-1-py3-none-any.whl\", "
    "hashes = {md5 = \"bb\", sha256 = \"cc\"}}]},\n"
    "{name = \"b\", vcs = {type = \"git\", url = \"https://x/b\", commit-id = \"dd\", "
    "subdirectory = \"s\"}},\n"
    "{name = \"c\", directory = {path = \"c\", editable = true}},\n"
    "{name = \"d\", archive = {path = \"d.zip\", hashes = {sha256 = \"ee\"}}},\n"
    "{name = \"e\", version = \"2\", sdist = {name = \"e-2.zip\", url = \"https://x/y\", "
    "hashes = {sha256 = \"ff\"}}}]\n";

static void picks(void)
{
    pylock_session session = {0};
    pylock_text text = {0};
    uint64_t judged = 77;
    bool is_plan = false;
    IS(pylock_session_start(&session, TEXT(PICKED),
                            TEXT("{\"environment\": {\"os_name\": \"posix\", "
                                 "\"python_full_version\": \"3.12.1\"}, "
                                 "\"tags\": [\"py3-none-any\"]}"),
                            &text),
       PYLOCK_OK);
    IS(pylock_session_picks(&session, &text, &is_plan), PYLOCK_OK);
    HOLDS(is_plan &&
          has(&text, "1\twheel\t2\ta\t1\ta-1-py3-none-any.whl\thttps://x/a-1-py3-none-any.whl"
                     "\tw/a-1-py3-none-any.whl\t-\t-\t-\tmd5\tbb\tsha256\tcc\n"
                     "2\tvcs\t-\tb\t-\t-\thttps://x/b\t-\tgit\tdd\ts\n"
                     "3\teditable\t-\tc\t-\t-\t-\tc\t-\t-\t-\n"
                     "4\tarchive\t-\td\t-\t-\t-\td.zip\t-\t-\t-\tsha256\tee\n"
                     "5\tsdist\t-\te\t2\te-2.zip\thttps://x/y\t-\t-\t-\t-\tsha256\tff\n"));
    IS(pylock_session_policy(&session, TEXT("e"), TEXT("wheel"), &judged), PYLOCK_OK);
    IS(pylock_session_picks(&session, &text, &is_plan), PYLOCK_OK);
    HOLDS(!is_plan && has(&text, "5\te\tno-file\twheels 0 sdist wheel\n"));
    pylock_text_free(&text);
    pylock_session_free(&session);
}

static void answers(void)
{
    pylock_text out = {0}, words = {0};
    pylock_environment environment = {0};
    pylock_marker marker = {0};
    uint8_t bytes[4];
    size_t needed = 77;
    int32_t status = 7;
    bool value = false;
    IS(pylock_plan(TEXT(LOCK), TEXT(POSIX), false, &out, &status), PYLOCK_OK);
    HOLDS(status == 0 && has(&out, "plan 1\n1\ta\t-\tdirectory\t-\ta\t-\t-\t-\n"));
    IS(pylock_text_copy(&out, bytes, sizeof bytes, &needed), PYLOCK_ROOM);
    HOLDS(needed == 33);
    IS(pylock_plan(TEXT(LOCK), TEXT(POSIX), true, &out, &status), PYLOCK_OK);
    HOLDS(has(&out, "{\"plan\":[{\"id\":1,\"kind\":\"directory\",\"name\":\"a\",\"path\":\"a\","
                    "\"place\":\"a\"}],\"pylock\":1}\n"));
    IS(pylock_plan(TEXT(LOCK), TEXT("{\"environment\": {}, \"tags\": []}"), false, &out, &status),
       PYLOCK_OK);
    HOLDS(status == 1 && has(&out, "fault 0\tpython-unknown\n"));
    IS(pylock_plan(TEXT("x"), TEXT("y"), false, &out, &status), PYLOCK_OK);
    HOLDS(status == 2 && has(&out, "lock\ttoml\n"));
    IS(pylock_plan(TEXT(LOCK), TEXT("\xff"), false, &out, &status), PYLOCK_OK);
    HOLDS(status == 2 && has(&out, "environment\tjson\n"));
    IS(pylock_explain(TEXT(LOCK), TEXT(POSIX), false, &out, &status), PYLOCK_OK);
    HOLDS(status == 0 && has(&out, "head\tok\t-\n1\ta\t-\tdirectory\ta\n"
                                   "2\tb\t-\tskipped\tos_name == 'nt'\n"));
    IS(pylock_files(TEXT(LOCK), false, &out, &status), PYLOCK_OK);
    HOLDS(status == 0 && has(&out, "files 2\n1\ta\t-\tdirectory\t-\ta\t-\t-\t-\n"
                                   "2\tb\t-\tdirectory\t-\tb\t-\t-\t-\n"));
    IS(pylock_audit(TEXT(LOCK), true, &out, &status), PYLOCK_OK);
    HOLDS(status == 1 && has(&out, "{\"findings\":[{\"detail\":\"A_b\",\"finding\":\"name-form\","
                                   "\"id\":0}],\"pylock\":1}\n"));
    IS(pylock_lock_head(TEXT(LOCK), &out, &words), PYLOCK_OK);
    HOLDS(!words.full &&
          has(&out, "{\"default_groups\":[],\"environments\":[],\"extras\":[\"a-b\"],"
                    "\"groups\":[],\"pylock\":1,\"requires_python\":\">=3.8\"}\n"));
    IS(pylock_lock_head(TEXT("x"), &out, &words), PYLOCK_LOCK_REFUSED);
    HOLDS(has(&words, "lock\ttoml\n") && !has(&out, ""));
    IS(pylock_lock_message(TEXT("x"), &out), PYLOCK_OK);
    HOLDS(!has(&out, ""));
    IS(pylock_lock_message(TEXT(LOCK), &out), PYLOCK_OK);
    HOLDS(has(&out, ""));
    IS(pylock_environment_message(TEXT("[]"), &out), PYLOCK_OK);
    HOLDS(!has(&out, ""));
    IS(pylock_environment_message(TEXT(POSIX), &out), PYLOCK_OK);
    HOLDS(has(&out, ""));
    IS(pylock_environment_read(&environment, TEXT(POSIX), &words), PYLOCK_OK);
    HOLDS(has(&words, "lock\ttoml\n"));
    IS(pylock_environment_read(&environment, TEXT("[]"), &words), PYLOCK_ENVIRONMENT_REFUSED);
    HOLDS(has(&words, "environment\tshape\n"));
    IS(pylock_environment_target(TEXT("3.12"), TEXT("win_amd64"), &out), PYLOCK_OK);
    HOLDS(!has(&out, ""));
    IS(pylock_environment_target(TEXT("2.7"), TEXT("win"), &out), PYLOCK_TARGET_PYTHON);
    IS(pylock_environment_target(TEXT("3.12"), TEXT("win"), &out), PYLOCK_TARGET_PLATFORM);
    IS(pylock_environment_target(TEXT("3.12"), TEXT("\xff"), &out), PYLOCK_NOT_UTF8);
    IS(pylock_marker_parse(&marker, TEXT("python_full_version > '3.12.0'")), PYLOCK_OK);
    IS(pylock_marker_evaluate(&marker, &environment, &value), PYLOCK_OK);
    HOLDS(value);
    pylock_text_free(&out);
    IS(pylock_text_length(&out, &needed), PYLOCK_EMPTY);
    pylock_text_free(&words);
    pylock_marker_free(&marker);
    pylock_environment_free(&environment);
}

/* a lock, an entry and an environment, with each key that takes memory */
static const char KEYED[] =
    "lock-version = \"1.0\"\ncreated-by = \"t\"\nenvironments = [\"os_name == 'posix'\"]\n"
    "requires-python = \">=3.9\"\nextras = [\"a\", \"A\"]\ndependency-groups = [\"dev\"]\n"
    "default-groups = [\"main\"]\npackages = [\n"
    "{name=\"A_a\", version=\"1\", marker=\"os_name == 'posix'\", requires-python=\">=3.9\", "
    "sdist={url=\"https://h/a%2B1.tar.gz\", hashes={sha256=\"00\"}}, "
    "wheels=[{path=\"w/a-1-py3-none-any.whl\"}]},\n"
    "{name=\"b\", marker=\"os_name == 'posix'\", requires-python=\">=3.9\", "
    "vcs={type=\"git\", commit-id=\"f0\", url=\"u\"}}]\n";
#define SOURCED "{name=\"A_a\", marker=\"os_name == 'nt'\", requires-python=\"<4\", " \
                "archive={path=\"p\", hashes={sha256=\"00\"}}, " \
                "directory={path=\"d\", editable=true, subdirectory=\"s\"}, " \
                "wheels=[{url=\"h/a-1-py3-none-any.whl\"}, {name=\"n\", path=\"p\"}]}"
static const char NT[] =
    "{\"environment\":{\"os_name\":\"nt\",\"python_full_version\":\"3.12.0\"},"
    "\"tags\":[\"py3-none-any\",\"PY3-none-any\",\"py2-none-any\"]}";

static void reads(void)
{
    pylock_text out = {0}, words = {0};
    pylock_environment environment = {0};
    pylock_marker marker = {0};
    int32_t status = 7;
    bool value = false;
    IS(pylock_lock_head(TEXT(KEYED), &out, &words), PYLOCK_OK);
    HOLDS(has(&out, "{\"default_groups\":[\"main\"],\"environments\":[\"os_name == 'posix'\"],"
                    "\"extras\":[\"a\"],\"groups\":[\"dev\"],\"pylock\":1,"
                    "\"requires_python\":\">=3.9\"}\n"));
    IS(pylock_files(TEXT(KEYED), false, &out, &status), PYLOCK_OK);
    HOLDS(has(&out, "files 3\n"
                    "1\ta-a\t1\twheel\ta-1-py3-none-any.whl\tw/a-1-py3-none-any.whl\t-\t-\t-\n"
                    "1\ta-a\t1\tsdist\ta+1.tar.gz\thttps://h/a%2B1.tar.gz\tsha256=00\t-\t-\n"
                    "2\tb\t-\tvcs\t-\tu\t-\tgit@f0\t-\n"));
    IS(pylock_explain(TEXT(KEYED), TEXT(NT), false, &out, &status), PYLOCK_OK);
    HOLDS(has(&out, "head\tno-environment\t-\n1\ta-a\t1\tskipped\tos_name == 'posix'\n"
                    "2\tb\t-\tskipped\tos_name == 'posix'\n"));
    IS(pylock_explain(TEXT(KEYED),
                      TEXT("{\"environment\":{\"os_name\":\"posix\",\"python_full_version\":"
                           "\"3.8\"},\"tags\":[]}"),
                      false, &out, &status),
       PYLOCK_OK);
    HOLDS(has(&out, "head\tpython-not-met\t>=3.9\n1\ta-a\t1\tpython-not-met\t>=3.9\n"
                    "2\tb\t-\tpython-not-met\t>=3.9\n"));
    IS(pylock_files(TEXT("lock-version = \"1.0\"\ncreated-by = \"t\"\npackages = [" SOURCED "]\n"),
                    false, &out, &status),
       PYLOCK_OK);
    HOLDS(has(&out, "files 4\n1\ta-a\t-\teditable\t-\td\t-\t-\ts\n"
                    "1\ta-a\t-\tarchive\t-\tp\tsha256=00\t-\t-\n"
                    "1\ta-a\t-\twheel\ta-1-py3-none-any.whl\th/a-1-py3-none-any.whl\t-\t-\t-\n"
                    "1\ta-a\t-\twheel\tn\tp\t-\t-\t-\n"));
    IS(pylock_environment_read(&environment, TEXT(NT), &words), PYLOCK_OK);
    IS(pylock_marker_parse(&marker, TEXT("os_name == 'nt' and python_full_version == '3.12.0'")),
       PYLOCK_OK);
    IS(pylock_marker_evaluate(&marker, &environment, &value), PYLOCK_OK);
    HOLDS(value);
    IS(pylock_marker_parse(&marker, TEXT("sys_platform == 'x'")), PYLOCK_OK);
    IS(pylock_marker_evaluate(&marker, &environment, &value), PYLOCK_VALUE_UNSET);
    HOLDS(!words.full);
    pylock_text_free(&out);
    pylock_marker_free(&marker);
    pylock_environment_free(&environment);
}

/* ---- sessions ---- */

#define EMPTY "lock-version = \"1.0\"\ncreated-by = \"c\"\n"
static const char EDITED[] =
    EMPTY "extras = [\"sci\"]\ndependency-groups = [\"test\"]\n"
    "[[packages]]\nname = \"a\"\nversion = \"1\"\ndirectory = { path = \"a\" }\n"
    "[[packages]]\nname = \"b\"\nversion = \"2\"\nmarker = \"'sci' in extras\"\n"
    "directory = { path = \"b\" }\n"
    "[[packages]]\nname = \"c\"\nversion = \"3\"\n"
    "marker = \"'test' in dependency_groups and os_name == 'nt'\"\n"
    "wheels = [{ name = \"c-3-py3-none-any.whl\", path = \"c.whl\" }]\n";
static const char TAGGED[] =
    "{\"environment\": {\"os_name\": \"posix\"}, \"tags\": [\"py3-none-any\"]}";

#define ENTRY_A "1\ta\t1\tdirectory\t-\ta\t-\t-\t-\n"
#define ENTRY_B "2\tb\t2\tdirectory\t-\tb\t-\t-\t-\n"
#define ENTRY_C "3\tc\t3\twheel\tc-3-py3-none-any.whl\tc.whl\t-\t-\t-\n"
#define ENTRY_D "4\td\t4\tdirectory\t-\td\t-\t-\t-\n"
#define TEXT_D "{ name = \"D\", version = \"4\", directory = { path = \"d\" } }"

/* the answer of a session, whether it is a plan, and what was judged last */
static void stands(pylock_session *session, const char *answer, bool plan, const char *numbers)
{
    pylock_text text = {0};
    bool is_plan = !plan;
    IS(pylock_session_answer(session, false, &text, &is_plan), PYLOCK_OK);
    HOLDS(has(&text, answer) && is_plan == plan);
    IS(pylock_session_judged(session, &text), PYLOCK_OK);
    HOLDS(has(&text, numbers));
    pylock_text_free(&text);
}

static void empty_sessions(void)
{
    pylock_session session = {0};
    pylock_text text = {0};
    uint64_t judged = 77;
    bool is_plan = true;
    IS(pylock_session_set(&session, TEXT("\xff"), TEXT("x"), &judged), PYLOCK_EMPTY);
    IS(pylock_session_unset(&session, TEXT("os_name"), &judged), PYLOCK_EMPTY);
    IS(pylock_session_add_extra(&session, TEXT("sci"), &judged), PYLOCK_EMPTY);
    IS(pylock_session_drop_extra(&session, TEXT("sci"), &judged), PYLOCK_EMPTY);
    IS(pylock_session_add_group(&session, TEXT("test"), &judged), PYLOCK_EMPTY);
    IS(pylock_session_drop_group(&session, TEXT("test"), &judged), PYLOCK_EMPTY);
    IS(pylock_session_add_extras(&session, TEXT("\xff"), &judged), PYLOCK_EMPTY);
    IS(pylock_session_drop_extras(&session, TEXT(""), &judged), PYLOCK_EMPTY);
    IS(pylock_session_add_groups(&session, TEXT("test"), &judged), PYLOCK_EMPTY);
    IS(pylock_session_drop_groups(&session, TEXT("test"), &judged), PYLOCK_EMPTY);
    IS(pylock_session_tags(&session, TEXT(""), &judged), PYLOCK_EMPTY);
    IS(pylock_session_add(&session, TEXT(TEXT_D), &judged), PYLOCK_EMPTY);
    IS(pylock_session_put(&session, 1, TEXT(TEXT_D), &judged), PYLOCK_EMPTY);
    IS(pylock_session_del(&session, 1, &judged), PYLOCK_EMPTY);
    IS(pylock_session_policy(&session, TEXT("a"), TEXT("any"), &judged), PYLOCK_EMPTY);
    IS(pylock_session_line(&session, TEXT("show"), &judged), PYLOCK_EMPTY);
    IS(pylock_session_answer(&session, false, &text, &is_plan), PYLOCK_EMPTY);
    IS(pylock_session_explain(&session, true, &text, &is_plan), PYLOCK_EMPTY);
    IS(pylock_session_picks(&session, &text, &is_plan), PYLOCK_EMPTY);
    IS(pylock_session_judged(&session, &text), PYLOCK_EMPTY);
    HOLDS(judged == 77 && is_plan && !text.full);
    pylock_session_free(&session);
    HOLDS(!session.full);
}

static void started_sessions(void)
{
    pylock_session session = {0};
    pylock_text words = {0};
    IS(pylock_session_start(&session, TEXT(EDITED), TEXT(TAGGED), &words), PYLOCK_OK);
    HOLDS(session.full && !words.full);
    IS(pylock_session_start(&session, TEXT("x"), TEXT("x"), &words), PYLOCK_LOCK_REFUSED);
    HOLDS(has(&words, "lock\ttoml\n"));
    IS(pylock_session_start(&session, TEXT(EMPTY "packages = [1]\n"), TEXT(TAGGED), &words),
       PYLOCK_LOCK_REFUSED);
    HOLDS(has(&words, "lock\tentry\t1\tnot-table\n"));
    IS(pylock_session_start(&session, TEXT(EDITED), TEXT("{}"), &words),
       PYLOCK_ENVIRONMENT_REFUSED);
    HOLDS(has(&words, "environment\tshape\n"));
    stands(&session, "plan 1\n" ENTRY_A, true, "0\t1\t2\t3");
    IS(pylock_session_start(&session, TEXT(EMPTY), TEXT(TAGGED), &words), PYLOCK_OK);
    HOLDS(has(&words, "environment\tshape\n"));
    stands(&session, "plan 0\n", true, "0");
    pylock_text_free(&words);
    pylock_session_free(&session);
    pylock_session_free(&session);
    HOLDS(!session.full && !session.kept);
}

/* of a lock that is taken strictly: the lock is judged, then what is found, then the environment */
static void strict_sessions(void)
{
    static const char sound[] =
        EMPTY "[[packages]]\nname = \"a\"\ndirectory = { path = \"a\" }\n";
    static const char found[] = EMPTY "[[packages]]\nname = \"A\"\nversion = \"1\"\n";
    pylock_session session = {0};
    pylock_text words = {0};
    IS(pylock_session_start_strict(&session, TEXT(sound), TEXT(TAGGED), false, &words), PYLOCK_OK);
    HOLDS(session.full && !words.full);
    IS(pylock_session_start_strict(&session, TEXT("x"), TEXT("x"), false, &words),
       PYLOCK_LOCK_REFUSED);
    HOLDS(has(&words, "lock\ttoml\n"));
    IS(pylock_session_start_strict(&session, TEXT(found), TEXT("x"), false, &words),
       PYLOCK_LOCK_FINDINGS);
    HOLDS(has(&words, "findings 2\n1\ta\tname-form\tA\n1\ta\tno-source\t-\n"));
    IS(pylock_session_start_strict(&session, TEXT(found), TEXT(TAGGED), true, &words),
       PYLOCK_LOCK_FINDINGS);
    HOLDS(has(&words, "{\"findings\":[{\"detail\":\"A\",\"finding\":\"name-form\",\"id\":1,"
                      "\"name\":\"a\"},{\"finding\":\"no-source\",\"id\":1,\"name\":\"a\"}],"
                      "\"pylock\":1}\n"));
    IS(pylock_session_start_strict(&session, TEXT(sound), TEXT("{}"), true, &words),
       PYLOCK_ENVIRONMENT_REFUSED);
    HOLDS(has(&words, "{\"pylock\":1,\"refused\":[\"environment\",\"shape\"]}\n"));
    stands(&session, "plan 1\n1\ta\t-\tdirectory\t-\ta\t-\t-\t-\n", true, "0\t1");
    pylock_text_free(&words);
    pylock_session_free(&session);
}

static void edited_sessions(pylock_session *session)
{
    uint64_t judged = 0;
    IS(pylock_session_add_extra(session, TEXT("Sci"), &judged), PYLOCK_OK);
    HOLDS(judged == 1);
    stands(session, "plan 2\n" ENTRY_A ENTRY_B, true, "2");
    IS(pylock_session_line(session, TEXT("show"), &judged), PYLOCK_OK);
    HOLDS(judged == 0);
    IS(pylock_session_line(session, TEXT("extra- sci\r"), &judged), PYLOCK_OK);
    HOLDS(judged == 1);
    stands(session, "plan 1\n" ENTRY_A, true, "2");
    IS(pylock_session_line(session, TEXT("extra+ sci"), &judged), PYLOCK_OK);
    IS(pylock_session_drop_extra(session, TEXT("SCI"), &judged), PYLOCK_OK);
    IS(pylock_session_add_extras(session, TEXT("Sci\nsci"), &judged), PYLOCK_OK);
    HOLDS(judged == 1);
    stands(session, "plan 2\n" ENTRY_A ENTRY_B, true, "2");
    IS(pylock_session_add_extras(session, TEXT(""), &judged), PYLOCK_OK);
    HOLDS(judged == 1);
    IS(pylock_session_drop_extras(session, TEXT("SCI"), &judged), PYLOCK_OK);
    stands(session, "plan 1\n" ENTRY_A, true, "2");
    IS(pylock_session_add_groups(session, TEXT("test"), &judged), PYLOCK_OK);
    IS(pylock_session_drop_groups(session, TEXT("test\nTest"), &judged), PYLOCK_OK);
    HOLDS(judged == 1);
    IS(pylock_session_add_group(session, TEXT("test"), &judged), PYLOCK_OK);
    HOLDS(judged == 1);
    IS(pylock_session_set(session, TEXT("os_name"), TEXT("nt"), &judged), PYLOCK_OK);
    stands(session, "plan 2\n" ENTRY_A ENTRY_C, true, "3");
    IS(pylock_session_policy(session, TEXT("C"), TEXT("source"), &judged), PYLOCK_OK);
    HOLDS(judged == 1);
    stands(session, "fault 3\tno-file\n", false, "3");
    IS(pylock_session_policy(session, TEXT("c"), TEXT("any"), &judged), PYLOCK_OK);
    IS(pylock_session_policies(session, TEXT("C\nc\nnone"), TEXT("source"), &judged), PYLOCK_OK);
    HOLDS(judged == 1);
    stands(session, "fault 3\tno-file\n", false, "3");
    IS(pylock_session_policies(session, TEXT("c"), TEXT("any"), &judged), PYLOCK_OK);
    HOLDS(judged == 1);
    IS(pylock_session_policies(session, TEXT(""), TEXT("source"), &judged), PYLOCK_OK);
    HOLDS(judged == 0);
    IS(pylock_session_tags(session, TEXT(""), &judged), PYLOCK_OK);
    stands(session, "fault 3\tno-file\n", false, "3");
    IS(pylock_session_tags(session, TEXT("cp312-cp312-any\npy3-none-any"), &judged), PYLOCK_OK);
    stands(session, "plan 2\n" ENTRY_A ENTRY_C, true, "3");
    IS(pylock_session_unset(session, TEXT("os_name"), &judged), PYLOCK_OK);
    stands(session, "fault 3\tmarker-unset\n", false, "3");
    IS(pylock_session_drop_group(session, TEXT("test"), &judged), PYLOCK_OK);
    IS(pylock_session_set(session, TEXT("os_name"), TEXT(""), &judged), PYLOCK_OK);
    IS(pylock_session_add(session, TEXT(TEXT_D), &judged), PYLOCK_OK);
    stands(session, "plan 2\n" ENTRY_A ENTRY_D, true, "4");
    IS(pylock_session_put(session, 1, TEXT("{ name = \"a\" }"), &judged), PYLOCK_OK);
    stands(session, "fault 1\tno-file\n", false, "1");
    judged = 77;
    IS(pylock_session_del(session, 1, &judged), PYLOCK_OK);
    HOLDS(judged == 0);
    stands(session, "plan 1\n" ENTRY_D, true, "");
}

/* a refused edit leaves the session, and how many judgements the last one made */
static void refused_edits(pylock_session *session)
{
    uint64_t judged = 77;
    IS(pylock_session_set(session, TEXT("os"), TEXT("x"), &judged), PYLOCK_EDIT_VARIABLE);
    IS(pylock_session_set(session, TEXT("os"), TEXT("\xff"), &judged), PYLOCK_NOT_UTF8);
    IS(pylock_session_set(session, TEXT("\xff"), TEXT("x"), &judged), PYLOCK_NOT_UTF8);
    IS(pylock_session_unset(session, TEXT("os"), &judged), PYLOCK_EDIT_VARIABLE);
    IS(pylock_session_unset(session, TEXT("\xff"), &judged), PYLOCK_NOT_UTF8);
    IS(pylock_session_add_extra(session, TEXT("test"), &judged), PYLOCK_EDIT_EXTRA);
    IS(pylock_session_drop_extra(session, TEXT(""), &judged), PYLOCK_EDIT_EXTRA);
    IS(pylock_session_add_extra(session, TEXT("\xff"), &judged), PYLOCK_NOT_UTF8);
    IS(pylock_session_add_group(session, TEXT("sci"), &judged), PYLOCK_EDIT_GROUP);
    IS(pylock_session_drop_group(session, TEXT("-"), &judged), PYLOCK_EDIT_GROUP);
    IS(pylock_session_drop_group(session, TEXT("\xff"), &judged), PYLOCK_NOT_UTF8);
    IS(pylock_session_add_extras(session, TEXT("sci\ntest"), &judged), PYLOCK_EDIT_EXTRA);
    IS(pylock_session_drop_extras(session, TEXT("sci\n"), &judged), PYLOCK_EDIT_EXTRA);
    IS(pylock_session_add_extras(session, TEXT("sci\n\xff"), &judged), PYLOCK_NOT_UTF8);
    IS(pylock_session_add_groups(session, TEXT("test\nsci"), &judged), PYLOCK_EDIT_GROUP);
    IS(pylock_session_drop_groups(session, TEXT("test\n\xff"), &judged), PYLOCK_NOT_UTF8);
    IS(pylock_session_policies(session, TEXT("a b"), TEXT("no"), &judged), PYLOCK_EDIT_ARGUMENT);
    IS(pylock_session_policies(session, TEXT("a\na b"), TEXT("any"), &judged), PYLOCK_EDIT_NAME);
    IS(pylock_session_policies(session, TEXT("a\n"), TEXT("any"), &judged), PYLOCK_EDIT_NAME);
    IS(pylock_session_policies(session, TEXT("\xff"), TEXT("any"), &judged), PYLOCK_NOT_UTF8);
    IS(pylock_session_policies(session, TEXT("a"), TEXT("\xff"), &judged), PYLOCK_NOT_UTF8);
    IS(pylock_session_tags(session, TEXT("py3-none-any\n"), &judged), PYLOCK_EDIT_TAG);
    IS(pylock_session_tags(session, TEXT("py3 none any"), &judged), PYLOCK_EDIT_TAG);
    IS(pylock_session_tags(session, TEXT("\xff"), &judged), PYLOCK_NOT_UTF8);
    IS(pylock_session_target(session, TEXT("3.7"), TEXT("linux"), &judged), PYLOCK_EDIT_ARGUMENT);
    IS(pylock_session_target(session, TEXT("3.12"), TEXT("Linux"), &judged), PYLOCK_EDIT_ARGUMENT);
    IS(pylock_session_target(session, TEXT("3.12"), TEXT("\xff"), &judged), PYLOCK_NOT_UTF8);
    IS(pylock_session_add(session, TEXT(""), &judged), PYLOCK_EDIT_TOML);
    IS(pylock_session_add(session, TEXT("{}"), &judged), PYLOCK_EDIT_ENTRY);
    IS(pylock_session_add(session, TEXT("\xff"), &judged), PYLOCK_NOT_UTF8);
    IS(pylock_session_put(session, 1, TEXT(TEXT_D), &judged), PYLOCK_EDIT_NO_ENTRY);
    IS(pylock_session_put(session, 0, TEXT(TEXT_D), &judged), PYLOCK_EDIT_NO_ENTRY);
    IS(pylock_session_put(session, 1, TEXT("x"), &judged), PYLOCK_EDIT_TOML);
    IS(pylock_session_put(session, 4, TEXT("{ name = 1 }"), &judged), PYLOCK_EDIT_ENTRY);
    IS(pylock_session_del(session, UINT32_MAX, &judged), PYLOCK_EDIT_NO_ENTRY);
    IS(pylock_session_policy(session, TEXT("-"), TEXT("any"), &judged), PYLOCK_EDIT_NAME);
    IS(pylock_session_policy(session, TEXT("-"), TEXT("all"), &judged), PYLOCK_EDIT_ARGUMENT);
    IS(pylock_session_policy(session, TEXT("a"), TEXT("\xff"), &judged), PYLOCK_NOT_UTF8);
    IS(pylock_session_line(session, TEXT(""), &judged), PYLOCK_EDIT_COMMAND);
    IS(pylock_session_line(session, TEXT("del x"), &judged), PYLOCK_EDIT_ARGUMENT);
    IS(pylock_session_line(session, TEXT("del 9"), &judged), PYLOCK_EDIT_NO_ENTRY);
    IS(pylock_session_line(session, TEXT("set os x"), &judged), PYLOCK_EDIT_VARIABLE);
    IS(pylock_session_line(session, TEXT("\xff"), &judged), PYLOCK_NOT_UTF8);
    HOLDS(judged == 77);
    stands(session, "plan 1\n" ENTRY_D, true, "");
}

static void explained(pylock_session *session)
{
    pylock_text text = {0};
    bool is_plan = false;
    IS(pylock_session_explain(session, false, &text, &is_plan), PYLOCK_OK);
    HOLDS(is_plan &&
          has(&text, "head\tok\t-\n"
                     "2\tb\t2\tskipped\t'sci' in extras\n"
                     "3\tc\t3\tskipped\t'test' in dependency_groups and os_name == 'nt'\n"
                     "4\td\t4\tdirectory\td\n"));
    is_plan = false;
    IS(pylock_session_answer(session, true, &text, &is_plan), PYLOCK_OK);
    HOLDS(is_plan &&
          has(&text, "{\"plan\":[{\"id\":4,\"kind\":\"directory\",\"name\":\"d\",\"path\":\"d\","
                     "\"place\":\"d\",\"version\":\"4\"}],\"pylock\":1}\n"));
    pylock_text_free(&text);
}

/* lines that are too long */
static void long_lines(pylock_session *session)
{
    static uint8_t line[1048577];
    uint64_t judged = 77;
    memset(line, ' ', sizeof line);
    IS(pylock_session_line(session, line, sizeof line - 1, &judged), PYLOCK_EDIT_COMMAND);
    IS(pylock_session_line(session, line, sizeof line, &judged), PYLOCK_EDIT_LONG);
    line[0] = 0xff;
    IS(pylock_session_line(session, line, sizeof line, &judged), PYLOCK_EDIT_LONG);
    HOLDS(judged == 77);
}

/* the same entry, and each of its sources alone, as texts of edits */
static void read_entries(void)
{
    pylock_session session = {0};
    pylock_text text = {0};
    uint64_t judged = 77;
    bool is_plan = false;
    IS(pylock_session_start(&session, TEXT(EMPTY), TEXT(NT), &text), PYLOCK_OK);
    IS(pylock_session_add(&session, TEXT(SOURCED), &judged), PYLOCK_OK);
    IS(pylock_session_explain(&session, false, &text, &is_plan), PYLOCK_OK);
    HOLDS(has(&text, "head\tok\t-\n1\ta-a\t-\tsources\tdirectory,archive,wheel\n"));
    IS(pylock_session_set(&session, TEXT("python_full_version"), TEXT("4"), &judged), PYLOCK_OK);
    IS(pylock_session_explain(&session, false, &text, &is_plan), PYLOCK_OK);
    HOLDS(has(&text, "head\tok\t-\n1\ta-a\t-\tpython-not-met\t<4\n"));
    IS(pylock_session_set(&session, TEXT("os_name"), TEXT("posix"), &judged), PYLOCK_OK);
    IS(pylock_session_explain(&session, false, &text, &is_plan), PYLOCK_OK);
    HOLDS(has(&text, "head\tok\t-\n1\ta-a\t-\tskipped\tos_name == 'nt'\n"));
    IS(pylock_session_put(&session, 1,
                          TEXT("{name=\"A_a\", directory={path=\"d\", editable=true, "
                               "subdirectory=\"s\"}}"),
                          &judged),
       PYLOCK_OK);
    stands(&session, "plan 1\n1\ta-a\t-\teditable\t-\td\t-\t-\ts\n", true, "1");
    IS(pylock_session_put(&session, 1,
                          TEXT("{name=\"a\", archive={path=\"p\", hashes={sha256=\"00\"}}}"),
                          &judged),
       PYLOCK_OK);
    stands(&session, "plan 1\n1\ta\t-\tarchive\t-\tp\tsha256=00\t-\t-\n", true, "1");
    IS(pylock_session_put(&session, 1,
                          TEXT("{name=\"a\", wheels=[{name=\"n\", path=\"p\"}, "
                               "{url=\"h/a-1-py2-none-any.whl\"}]}"),
                          &judged),
       PYLOCK_OK);
    stands(&session,
           "plan 1\n1\ta\t-\twheel\ta-1-py2-none-any.whl\th/a-1-py2-none-any.whl\t-\t-\t-\n", true,
           "1");
    pylock_text_free(&text);
    pylock_session_free(&session);
}

/* The last number is given out. Not with refused allocations, which would be too many, so it isn't
   counted. */
static void last_number(void)
{
    static const char head[] = EMPTY;
    static const char entry[] = "[[packages]]\nname = \"a\"\n";
    static char many[sizeof head + 100000 * sizeof entry];
    pylock_session session = {0};
    pylock_text words = {0};
    uint64_t judged = 77;
    size_t length = strlen(head);
    if (may_refuse) return;
    memcpy(many, head, sizeof head);
    for (int i = 0; i < 100000; i++, length += strlen(entry))
        memcpy(many + length, entry, sizeof entry);
    if (pylock_session_start(&session, TEXT(many), TEXT(TAGGED), &words) != PYLOCK_OK ||
        pylock_session_add(&session, TEXT(TEXT_D), &judged) != PYLOCK_EDIT_TOO_MANY ||
        judged != 77)
        holds(__LINE__, false);
    pylock_session_free(&session);
}

static void sessions(void)
{
    pylock_session session = {0};
    pylock_text words = {0};
    empty_sessions();
    started_sessions();
    strict_sessions();
    read_entries();
    IS(pylock_session_start(&session, TEXT(EDITED), TEXT(TAGGED), &words), PYLOCK_OK);
    edited_sessions(&session);
    refused_edits(&session);
    explained(&session);
    long_lines(&session);
    pylock_session_free(&session);
    last_number();
}

/* ---- the whole program ---- */

/* joined texts */
struct joined {
    size_t lengths[8], count, length;
    uint8_t bytes[2048];
};

/* joins the texts up to NULL */
static void join(struct joined *joined, const char *const *texts)
{
    joined->count = joined->length = 0;
    for (; *texts; texts++) {
        size_t length = strlen(*texts);
        memcpy(joined->bytes + joined->length, *texts, length);
        joined->lengths[joined->count++] = length;
        joined->length += length;
    }
}

#define JOIN(joined, ...) join((joined), (const char *const[]){__VA_ARGS__, NULL})
#define PARTS(joined) (joined).lengths, (joined).count, (joined).bytes, (joined).length

/* what a run of the program left */
struct left {
    pylock_text output, diagnostics;
    int32_t status;
};

static int32_t run_program(const struct joined *words, const struct joined *files,
                           const char *input, struct left *left)
{
    return pylock_main(PARTS(*words), PARTS(*files), TEXT(input), &left->output,
                       &left->diagnostics, &left->status);
}

/* Whether a run left this. What there was no memory for isn't told on standard error. */
static bool has_left(struct left *left, int32_t status, const char *output,
                     const char *diagnostics)
{
    return left->status == status && has(&left->output, output) &&
           (may_refuse || has(&left->diagnostics, diagnostics));
}

static void program(void)
{
    struct joined words, files, none = {{0}, 0, 0, {0}};
    struct left left = {{0}, {0}, 77};
    JOIN(&files, "lock", EDITED, "environment", TAGGED, "lock", "x");
    JOIN(&words, "pylock", "plan", "lock", "environment");
    IS(run_program(&words, &files, "", &left), PYLOCK_OK);
    HOLDS(has_left(&left, 0, "plan 1\n" ENTRY_A, ""));
    IS(run_program(&words, &none, "", &left), PYLOCK_OK);
    HOLDS(has_left(&left, 3, "", "pylock: file: lock: no such file\n"));
    JOIN(&words, "pylock", "plan", "-", "environment", "--extra", "x");
    IS(run_program(&words, &files, EDITED, &left), PYLOCK_OK);
    HOLDS(has_left(&left, 1, "refused\textra\tx\n",
                   "pylock: --extra: `x`: not an extra of -; its only extra is sci\n"));
    JOIN(&words, "pylock", "select", "lock", "environment", "--json");
    IS(run_program(&words, &files, "fly", &left), PYLOCK_OK);
    HOLDS(has_left(&left, 1,
                   "{\"plan\":[{\"id\":1,\"kind\":\"directory\",\"name\":\"a\",\"path\":\"a\","
                   "\"place\":\"a\",\"version\":\"1\"}],\"pylock\":1}\n"
                   "{\"line\":1,\"pylock\":1,\"refused\":[\"command\"]}\n",
                   ""));
    JOIN(&words, "pylock", "name", "A.b");
    IS(run_program(&words, &none, "", &left), PYLOCK_OK);
    HOLDS(has_left(&left, 0, "a-b\n", ""));
    JOIN(&words, "pylock", "fly");
    IS(run_program(&words, &none, "", &left), PYLOCK_OK);
    HOLDS(left.status == 2 && has(&left.output, ""));
    JOIN(&words, "pylock", "name", "\xff");
    IS(run_program(&words, &none, "", &left), PYLOCK_OK);
    HOLDS(has_left(&left, 2, "", "pylock: a word of the command line is not UTF-8\n"));
    JOIN(&words, "pylock", "name", "");
    IS(run_program(&words, &none, "", &left), PYLOCK_OK);
    HOLDS(left.status == 1 && has(&left.output, "refused\tname\n"));
    /* lengths that don't add up, of words and of files; nothing is changed */
    left.status = 77;
    words.lengths[2]++;
    IS(run_program(&words, &none, "", &left), PYLOCK_PARTS);
    words.lengths[2] = SIZE_MAX;
    IS(run_program(&words, &none, "", &left), PYLOCK_PARTS);
    JOIN(&words, "pylock", "name", "a");
    files.length--;
    IS(run_program(&words, &files, "", &left), PYLOCK_PARTS);
    HOLDS(left.status == 77 && has(&left.output, "refused\tname\n"));
    pylock_text_free(&left.output);
    pylock_text_free(&left.diagnostics);
}

static void asked(void)
{
    struct joined words;
    pylock_text record = {0};
    JOIN(&words, "pylock", "select", "a\tb", "-");
    IS(pylock_select_asked(PARTS(words), &record), PYLOCK_OK);
    HOLDS(has(&record, ""));
    JOIN(&words, "pylock", "select", "a\tb", "c", "--strict");
    IS(pylock_select_asked(PARTS(words), &record), PYLOCK_OK);
    HOLDS(has(&record, "a\\tb\tc\t-\t-\tstrict\t-"));
    JOIN(&words, "pylock", "select", "--json", "a", "--python=-", "--platform", "linux");
    IS(pylock_select_asked(PARTS(words), &record), PYLOCK_OK);
    HOLDS(has(&record, "a\t-\t\\-\tlinux\t-\tjson"));
    words.lengths[0]--;
    IS(pylock_select_asked(PARTS(words), &record), PYLOCK_PARTS);
    HOLDS(has(&record, "a\t-\t\\-\tlinux\t-\tjson"));
    JOIN(&words, "pylock", "plan", "a", "b");
    IS(pylock_select_asked(PARTS(words), &record), PYLOCK_OK);
    HOLDS(has(&record, ""));
    JOIN(&words, "pylock", "select", "\xff", "b");
    IS(pylock_select_asked(PARTS(words), &record), PYLOCK_OK);
    HOLDS(has(&record, ""));
    pylock_text_free(&record);
}

/* A piece of the input of a run, and what it has the run print; of the first one that is at its
   start, and of the last one at its end. */
struct piece {
    const char *bytes, *prints;
};

/* Feeds a run the pieces, whether they print so; the code of the call that ends it. */
static int32_t feed_each(pylock_run *run, bool json, const struct piece *pieces, size_t count,
                         bool *is_right)
{
    pylock_text text = {0};
    int32_t status = 77;
    int32_t code = pylock_run_start(run, TEXT(EDITED), TEXT(TAGGED), json, &text);
    *is_right = code == PYLOCK_OK && has(&text, pieces[0].prints);
    for (size_t i = 1; code == PYLOCK_OK && i + 1 < count; i++) {
        code = pylock_run_feed(run, json, TEXT(pieces[i].bytes), &text);
        *is_right = *is_right && code == PYLOCK_OK && has(&text, pieces[i].prints);
    }
    if (code == PYLOCK_OK) {
        code = pylock_run_end(run, json, &text, &status);
        *is_right = *is_right && has(&text, pieces[count - 1].prints) && status == 1;
    }
    pylock_text_free(&text);
    return code;
}

/* the same with a run that begins anew where memory is refused: it may only be freed then */
static void take_pieces(bool json, const struct piece *pieces, size_t count)
{
    pylock_run run = {0};
    bool is_right = false;
    int32_t code = feed_each(&run, json, pieces, count, &is_right);
    if (gave_up(code)) {
        pylock_run_free(&run);
        code = feed_each(&run, json, pieces, count, &is_right);
    }
    is(__LINE__, code, PYLOCK_OK);
    HOLDS(is_right && !run.full && !run.kept);
    pylock_run_free(&run);
}

#define COUNTED(pieces) (pieces), sizeof(pieces) / sizeof *(pieces)

static void runs(void)
{
    static const struct piece lines[] = {
        {"", "plan 1\n" ENTRY_A},
        {"ext", ""},
        {"ra+ sci\nfly\n", "plan 2\n" ENTRY_A ENTRY_B "refused 2\tcommand\n"},
        {"", ""},
        {"\n\xff\nextra- sc", "refused 3\tcommand\nrefused 4\ttext\n"},
        {"i\r\nfly", "plan 1\n" ENTRY_A},
        {"", "refused 6\tcommand\n"},
    };
    static const struct piece documents[] = {
        {"", "{\"plan\":[{\"id\":1,\"kind\":\"directory\",\"name\":\"a\",\"path\":\"a\","
             "\"place\":\"a\",\"version\":\"1\"}],\"pylock\":1}\n"},
        {"fly\nfly", "{\"line\":1,\"pylock\":1,\"refused\":[\"command\"]}\n"},
        {"", "{\"line\":2,\"pylock\":1,\"refused\":[\"command\"]}\n"},
    };
    take_pieces(false, COUNTED(lines));
    take_pieces(true, COUNTED(documents));
}

static void refused_runs(void)
{
    pylock_run run = {0};
    pylock_text text = {0};
    int32_t status = 77;
    IS(pylock_run_feed(&run, false, TEXT("show\n"), &text), PYLOCK_EMPTY);
    IS(pylock_run_end(&run, false, &text, &status), PYLOCK_EMPTY);
    pylock_run_free(&run);
    HOLDS(!run.full && !text.full && status == 77);
    IS(pylock_run_start(&run, TEXT("x"), TEXT("x"), true, &text), PYLOCK_LOCK_REFUSED);
    HOLDS(has(&text, "lock\ttoml\n") && !run.full);
    IS(pylock_run_start(&run, TEXT(EDITED), TEXT(TAGGED), false, &text), PYLOCK_OK);
    HOLDS(run.full && has(&text, "plan 1\n" ENTRY_A));
    IS(pylock_run_start(&run, TEXT(EDITED), TEXT("{}"), false, &text), PYLOCK_ENVIRONMENT_REFUSED);
    HOLDS(run.full && has(&text, "environment\tshape\n"));
    /* a filled slot gets another run */
    IS(pylock_run_start(&run, TEXT(EMPTY), TEXT(TAGGED), false, &text), PYLOCK_OK);
    HOLDS(has(&text, "plan 0\n"));
    pylock_run_free(&run);
    HOLDS(!run.full && !run.kept);
    pylock_text_free(&text);
}

/* Inputs that pass a limit. Not with refused allocations, which would be too many, so it isn't
   counted. */
static void passed_limits(void)
{
    static uint8_t lines[1000001];
    pylock_run run = {0};
    pylock_text text = {0};
    size_t length = 0;
    if (may_refuse) return;
    memset(lines, '\n', sizeof lines);
    for (int more = 0; more < 2; more++) {
        if (pylock_run_start(&run, TEXT(EMPTY), TEXT(TAGGED), false, &text) != PYLOCK_OK)
            holds(__LINE__, false);
        if (pylock_run_feed(&run, false, lines, sizeof lines - 1, &text) != PYLOCK_OK)
            holds(__LINE__, false);
        if (pylock_text_length(&text, &length) != PYLOCK_OK || length < sizeof lines)
            holds(__LINE__, false);
        if (pylock_run_feed(&run, false, lines, (size_t)more, &text) !=
            (more ? PYLOCK_INPUT : PYLOCK_OK))
            holds(__LINE__, false);
        pylock_run_free(&run);
    }
    pylock_text_free(&text);
}

static void whole_program(void)
{
    program();
    asked();
    runs();
    refused_runs();
    passed_limits();
}

/* ---- edits of each kind ---- */

/* what a session shows: the numbers judged last, what becomes of each entry, and the answer */
struct shown {
    char judged[16], entries[256], answer[256];
};

/* a call that has to succeed, and isn't counted */
#define MUST(call) \
    do { \
        int32_t code = (call); \
        if (gave_up(code)) code = (call); \
        if (code != PYLOCK_OK) is(__LINE__, code, PYLOCK_OK); \
    } while (0)

/* moves a text into room that is all zeros, where it is to be shorter */
static void move(pylock_text *text, char *out, size_t room)
{
    size_t needed = 0;
    MUST(pylock_text_copy(text, (uint8_t *)out, room - 1, &needed));
    pylock_text_free(text);
}

static void show(pylock_session *session, struct shown *shown)
{
    pylock_text text = {0};
    bool is_plan = false;
    memset(shown, 0, sizeof *shown);
    MUST(pylock_session_judged(session, &text));
    move(&text, shown->judged, sizeof shown->judged);
    MUST(pylock_session_explain(session, false, &text, &is_plan));
    move(&text, shown->entries, sizeof shown->entries);
    MUST(pylock_session_answer(session, false, &text, &is_plan));
    move(&text, shown->answer, sizeof shown->answer);
}

enum kind { START, SET, UNSET, EXTRA, NO_EXTRA, GROUP, NO_GROUP, TAGS, POLICY, ADD, PUT, DEL };

/* An edit of a variable, a name or a number, and what the session shows after it: the numbers judged
   by it, a digit each; the names of the entries 1 to 4, a letter each, and - where none is; and the
   answer. */
struct step {
    enum kind kind;
    const char *name;
    uint32_t number;
    const char *text, *judged, *names, *answer;
};

static int32_t make(pylock_session *session, const struct step *step, uint64_t *judged)
{
    switch (step->kind) {
    case START: break;
    case SET: return pylock_session_set(session, TEXT(step->name), TEXT(step->text), judged);
    case UNSET: return pylock_session_unset(session, TEXT(step->name), judged);
    case EXTRA: return pylock_session_add_extra(session, TEXT(step->name), judged);
    case NO_EXTRA: return pylock_session_drop_extra(session, TEXT(step->name), judged);
    case GROUP: return pylock_session_add_group(session, TEXT(step->name), judged);
    case NO_GROUP: return pylock_session_drop_group(session, TEXT(step->name), judged);
    case TAGS: return pylock_session_tags(session, TEXT(step->text), judged);
    case POLICY: return pylock_session_policy(session, TEXT(step->name), TEXT(step->text), judged);
    case ADD: return pylock_session_add(session, TEXT(step->text), judged);
    case PUT: return pylock_session_put(session, step->number, TEXT(step->text), judged);
    case DEL: return pylock_session_del(session, step->number, judged);
    }
    return -1;
}

/* whether the record has just these numbers, a digit each */
static bool are_numbers(const char *record, const char *digits)
{
    size_t count = strlen(digits);
    if (strlen(record) != (count ? 2 * count - 1 : 0)) return false;
    for (size_t i = 0; i < count; i++)
        if (record[2 * i] != digits[i]) return false;
    return true;
}

/* whether the entries, whose lines stand behind that of the head, have these names */
static bool are_named(const char *lines, const char *names)
{
    char found[] = "----";
    const char *end = strchr(lines, '\n');
    for (; end && end[1]; end = strchr(end + 1, '\n')) {
        if (end[1] < '1' || end[1] > '4' || end[2] != '\t' || end[4] != '\t') return false;
        found[end[1] - '1'] = end[3];
    }
    return strcmp(found, names) == 0;
}

/* Makes the edit of a step, a second time where an allocation of it was refused: it has changed nothing
   then of what the session showed before it. */
static void take(pylock_session *session, const struct step *step, struct shown *shown)
{
    struct shown left;
    uint64_t judged = 77;
    int32_t code = make(session, step, &judged);
    if (gave_up(code)) {
        show(session, &left);
        if (judged != 77 || memcmp(&left, shown, sizeof left) != 0) holds(__LINE__, false);
        code = make(session, step, &judged);
    }
    is(__LINE__, code, PYLOCK_OK);
    HOLDS(judged == strlen(step->judged));
}

static void take_each(const char *lock, const char *environment, const struct step *steps,
                      size_t count)
{
    pylock_session session = {0};
    pylock_text words = {0};
    struct shown shown;
    IS(pylock_session_start(&session, TEXT(lock), TEXT(environment), &words), PYLOCK_OK);
    for (size_t i = 0; i < count; i++) {
        int before = failed;
        if (steps[i].kind != START) take(&session, &steps[i], &shown);
        show(&session, &shown);
        HOLDS(are_numbers(shown.judged, steps[i].judged));
        HOLDS(are_named(shown.entries, steps[i].names));
        HOLDS(strcmp(shown.answer, steps[i].answer) == 0);
        if (failed > before)
            printf("step %d: judged %s\n%s%s", (int)i, shown.judged, shown.entries, shown.answer);
    }
    pylock_session_free(&session);
}

#define WHEEL_A "1\ta\t-\twheel\ta-1-py3-none-any.whl\ta-1-py3-none-any.whl\t-\t-\t-\n"
#define SDIST_A "1\ta\t-\tsdist\ta-1.tar.gz\ta-1.tar.gz\t-\t-\t-\n"
#define FOLDER_A "1\ta\t-\tdirectory\t-\ta\t-\t-\t-\n"
#define FOLDER_B "2\tb\t-\tdirectory\t-\tb\t-\t-\t-\n"
#define FOLDER_C "3\tc\t-\tdirectory\t-\tc\t-\t-\t-\n"
#define FOLDER_D "4\td\t-\tdirectory\t-\td\t-\t-\t-\n"
#define VCS_E "4\te\t-\tvcs\t-\tu\t-\tgit@f\t-\n"
#define PYTHON "python_full_version"

/* each kind of edit, each after those before it */
static const struct step SOURCE_STEPS[] = {
    {START, "", 0, "", "0123", "abc-", "plan 1\n" WHEEL_A},
    {EXTRA, "x", 0, "", "2", "abc-", "plan 2\n" WHEEL_A FOLDER_B},
    {GROUP, "dev", 0, "", "3", "abc-", "plan 3\n" WHEEL_A FOLDER_B FOLDER_C},
    {SET, PYTHON, 0, "3.8", "3", "abc-", "fault 3\tpython-not-met\n"},
    {UNSET, PYTHON, 0, "", "3", "abc-", "fault 3\tpython-unknown\n"},
    {NO_GROUP, "dev", 0, "", "3", "abc-", "plan 2\n" WHEEL_A FOLDER_B},
    {TAGS, "", 0, "", "1", "abc-", "plan 2\n" SDIST_A FOLDER_B},
    {POLICY, "A", 0, "wheel", "1", "abc-", "fault 1\tno-file\n"},
    {POLICY, "a", 0, "source", "1", "abc-", "plan 2\n" SDIST_A FOLDER_B},
    {POLICY, "zz", 0, "wheel", "", "abc-", "plan 2\n" SDIST_A FOLDER_B},
    {ADD, "", 0, "{name=\"d\", directory={path=\"d\"}}", "4", "abcd",
     "plan 3\n" SDIST_A FOLDER_B FOLDER_D},
    {PUT, "", 4,
     "{name=\"e\", marker=\"os_name == 'nt'\", vcs={type=\"git\", commit-id=\"f\", url=\"u\"}}",
     "4", "abce", "plan 2\n" SDIST_A FOLDER_B},
    {SET, "os_name", 0, "nt", "4", "abce", "plan 3\n" SDIST_A FOLDER_B VCS_E},
    {NO_EXTRA, "x", 0, "", "2", "abce", "plan 2\n" SDIST_A VCS_E},
    {DEL, "", 4, "", "", "abc-", "plan 1\n" SDIST_A},
};

/* edits where an extra and a group are asked for, and the head reads python_full_version */
static const struct step ASKED_STEPS[] = {
    {START, "", 0, "", "0123", "abc-", "plan 1\n" FOLDER_A},
    {EXTRA, "x", 0, "", "2", "abc-", "plan 2\n" FOLDER_A FOLDER_B},
    {GROUP, "g", 0, "", "3", "abc-", "plan 3\n" FOLDER_A FOLDER_B FOLDER_C},
    {SET, PYTHON, 0, "3.13.0", "03", "abc-", "plan 3\n" FOLDER_A FOLDER_B FOLDER_C},
    {SET, PYTHON, 0, "3.8.1", "03", "abc-", "fault 0\tpython-not-met\n"},
    {UNSET, PYTHON, 0, "", "03", "abc-", "fault 0\tpython-unknown\n"},
    {SET, PYTHON, 0, "3.9", "03", "abc-", "plan 3\n" FOLDER_A FOLDER_B FOLDER_C},
    {SET, "os_name", 0, "nt", "1", "abc-", "plan 2\n" FOLDER_B FOLDER_C},
    {NO_EXTRA, "X", 0, "", "2", "abc-", "plan 1\n" FOLDER_C},
    {NO_GROUP, "G", 0, "", "3", "abc-", "plan 0\n"},
    {DEL, "", 1, "", "", "-bc-", "plan 0\n"},
};

#define STEPS(steps) (steps), sizeof(steps) / sizeof *(steps)
#define AT_POSIX "{\"environment\":{\"os_name\":\"posix\",\"python_full_version\":\"3.12.0\"},"

static void edits(void)
{
    take_each(EMPTY "extras = [\"x\"]\ndependency-groups = [\"dev\"]\npackages = ["
                    "{name=\"a\", sdist={path=\"a-1.tar.gz\"}, "
                    "wheels=[{path=\"a-1-py3-none-any.whl\"}]}, "
                    "{name=\"b\", marker=\"'x' in extras\", directory={path=\"b\"}}, "
                    "{name=\"c\", marker=\"'dev' in dependency_groups\", "
                    "requires-python=\">=3.9\", directory={path=\"c\"}}]\n",
              AT_POSIX "\"tags\":[\"py3-none-any\"]}", STEPS(SOURCE_STEPS));
    take_each(EMPTY "requires-python = \">=3.9\"\nextras = [\"x\"]\ndependency-groups = [\"g\"]\n"
                    "packages = [{name=\"a\", marker=\"os_name == 'posix'\", "
                    "directory={path=\"a\"}}, "
                    "{name=\"b\", marker=\"'x' in extras\", directory={path=\"b\"}}, "
                    "{name=\"c\", marker=\"'g' in dependency_groups\", "
                    "requires-python=\">=3.9\", directory={path=\"c\"}}]\n",
              AT_POSIX "\"tags\":[]}", STEPS(ASKED_STEPS));
}

static void calls(void)
{
    IS((int32_t)pylock_abi(), 1);
    names();
    version_keys();
    versions();
    version_kinds();
    normal_versions();
    version_splits();
    whole_versions();
    set_spans();
    texts();
    requirements();
    written_sets();
    expected();
    wheels();
    wheel_parts();
    tags();
    sdists();
    sets();
    asked_sets();
    markers();
    marker_trees();
    extras();
    asked_markers();
    environment_records();
    answers();
    picks();
    reads();
    sessions();
    whole_program();
}

int main(int count, char **words)
{
    may_refuse = getenv("REFUSE_ALLOCATION") != NULL;
    if (count > 1 && strcmp(words[1], "edits") == 0)
        edits();
    else
        calls();
    printf("calls: %d passed, %d failed\n", passed, failed);
    return failed ? 1 : 0;
}
