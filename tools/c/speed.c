/* Measures calls of the library for C, and judges nothing; tools/measure/speed builds and runs it. Without
   words each call is made a hundred thousand times. With `start LOCK ENVIRONMENT` it says what the
   start of a session takes beside the reading of the two files. A line is a name, a TAB and
   nanoseconds of processor time, of a call or of the start. */
#include "pylock.h"

#include <stdio.h>
#include <stdlib.h>
#include <string.h>
#include <time.h>

#define TEXT(text) (const uint8_t *)(text), strlen(text)
#define ROUNDS 100000
#define STARTS 5

static double now(void)
{
    struct timespec time;
    clock_gettime(CLOCK_PROCESS_CPUTIME_ID, &time);
    return (double)time.tv_sec * 1e9 + (double)time.tv_nsec;
}

/* ends the program where a call is refused */
static void made(int32_t code, const char *name)
{
    if (code != PYLOCK_OK) {
        fprintf(stderr, "speed: %s: code %d\n", name, (int)code);
        exit(1);
    }
}

#define TIME(name, what) \
    do { \
        double start = now(); \
        for (int round = 0; round < ROUNDS; round++) made((what), (name)); \
        printf("%s\t%.0f\n", (name), (now() - start) / ROUNDS); \
    } while (0)

static const char *const VERSIONS[] = {"1.2.3", "10.20.30rc1", "2.0.0a7+build.5", "0.11.0"};
static const char *const MARKERS[] = {
    "python_version >= \"3.8\"",
    "sys_platform == \"win32\"",
    "(platform_machine == \"aarch64\" or platform_machine == \"x86_64\") and sys_platform != "
    "\"darwin\"",
};
static const char *const REQUIREMENTS[] = {
    "requests>=2.31",
    "requests[security, tests] >= 2.8.1, == 2.8.* ; python_version < \"2.7\"",
    "pip @ https://github.com/pypa/pip/archive/1.3.1.zip ; os_name == \"nt\"",
};
static const char ENVIRONMENT[] =
    "{\"environment\":{\"python_version\":\"3.12\",\"sys_platform\":\"linux\","
    "\"platform_machine\":\"x86_64\",\"os_name\":\"posix\"},\"tags\":[]}";

static void versions(void)
{
    uint8_t out[256];
    size_t needed;
    bool admits;
    pylock_set set = {0};
    TIME("pylock_version_key", pylock_version_key(TEXT(VERSIONS[round % 4]), out, sizeof out,
                                                  &needed));
    TIME("pylock_version", pylock_version(TEXT(VERSIONS[round % 4]), out, sizeof out, &needed));
    made(pylock_set_parse(&set, TEXT(">=1.2.3,<2")), "pylock_set_parse");
    TIME("pylock_set_admits", pylock_set_admits(&set, TEXT(VERSIONS[round % 4]), &admits));
    pylock_set_free(&set);
    TIME("pylock_name", pylock_name(TEXT("Foo.Bar_baz"), out, sizeof out, &needed));
}

static int32_t parse(pylock_marker *marker, const char *text)
{
    int32_t code = pylock_marker_parse(marker, TEXT(text));
    pylock_marker_free(marker);
    return code;
}

static void markers(void)
{
    pylock_environment environment = {0};
    pylock_text words = {0};
    made(pylock_environment_read(&environment, TEXT(ENVIRONMENT), &words),
         "pylock_environment_read");
    for (size_t i = 0; i < sizeof MARKERS / sizeof *MARKERS; i++) {
        pylock_marker marker = {0};
        char name[200];
        bool value;
        snprintf(name, sizeof name, "pylock_marker_parse %s", MARKERS[i]);
        TIME(name, parse(&marker, MARKERS[i]));
        made(pylock_marker_parse(&marker, TEXT(MARKERS[i])), name);
        snprintf(name, sizeof name, "pylock_marker_evaluate %s", MARKERS[i]);
        TIME(name, pylock_marker_evaluate(&marker, &environment, &value));
        pylock_marker_free(&marker);
    }
    pylock_environment_free(&environment);
}

static int32_t record(int32_t code, pylock_text *text)
{
    pylock_text_free(text);
    return code;
}

static void names(void)
{
    pylock_text text = {0};
    for (size_t i = 0; i < sizeof REQUIREMENTS / sizeof *REQUIREMENTS; i++) {
        char name[200];
        snprintf(name, sizeof name, "pylock_requirement %s", REQUIREMENTS[i]);
        TIME(name, record(pylock_requirement(TEXT(REQUIREMENTS[i]), &text), &text));
    }
    TIME("pylock_wheel",
         record(pylock_wheel(TEXT("numpy-2.2.1-cp312-cp312-manylinux_2_17_x86_64."
                                  "manylinux2014_x86_64.whl"), &text), &text));
}

/* the bytes of a file, which are not freed */
static uint8_t *read_file(const char *path, size_t *length)
{
    FILE *file = fopen(path, "rb");
    uint8_t *bytes = NULL;
    if (file && fseek(file, 0, SEEK_END) == 0) {
        *length = (size_t)ftell(file);
        rewind(file);
        bytes = malloc(*length + 1);
    }
    if (!bytes || fread(bytes, 1, *length, file) != *length) {
        fprintf(stderr, "speed: %s can't be read\n", path);
        exit(1);
    }
    fclose(file);
    return bytes;
}

static double least(double some, double other)
{
    return some < other ? some : other;
}

static void start(const char *lock_path, const char *environment_path)
{
    size_t lock_length, environment_length;
    uint8_t *lock = read_file(lock_path, &lock_length);
    uint8_t *json = read_file(environment_path, &environment_length);
    double head = 1e18, reading = 1e18, whole = 1e18;
    for (int round = 0; round < STARTS; round++) {
        pylock_text text = {0}, words = {0};
        pylock_environment environment = {0};
        pylock_session session = {0};
        double at = now();
        made(pylock_lock_head(lock, lock_length, &text, &words), "pylock_lock_head");
        pylock_text_free(&text);
        head = least(head, now() - at);
        at = now();
        made(pylock_environment_read(&environment, json, environment_length, &words),
             "pylock_environment_read");
        pylock_environment_free(&environment);
        reading = least(reading, now() - at);
        at = now();
        made(pylock_session_start(&session, lock, lock_length, json, environment_length, &words),
             "pylock_session_start");
        pylock_session_free(&session);
        whole = least(whole, now() - at);
    }
    printf("start\t%.0f\n", whole - head - reading);
}

int main(int count, char **words)
{
    if (count == 4 && strcmp(words[1], "start") == 0) {
        start(words[2], words[3]);
        return 0;
    }
    versions();
    markers();
    names();
    return 0;
}
