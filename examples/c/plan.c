/* Prints what a lock installs in an environment with one of its extras: plan LOCK ENVIRONMENT EXTRA.
   The status is 0 for a plan, 1 for a fault, 2 for what is refused, 3 for a file or for memory. */
#include "pylock.h"

#include <stdio.h>
#include <stdlib.h>
#include <string.h>

/* The bytes of a file, which the caller frees. */
static uint8_t *read_file(const char *name, size_t *length)
{
    FILE *file = fopen(name, "rb");
    long size = file && !fseek(file, 0, SEEK_END) ? ftell(file) : -1;
    uint8_t *bytes = size < 0 ? NULL : malloc((size_t)size + 1);
    if (!bytes || fseek(file, 0, SEEK_SET) || fread(bytes, 1, (size_t)size, file) < (size_t)size) {
        perror(name);
        exit(3);
    }
    fclose(file);
    *length = (size_t)size;
    return bytes;
}

/* Prints a kept text, where there is one, and frees it. */
static int32_t print(pylock_text *text)
{
    size_t length = 0;
    uint8_t *bytes;
    if (pylock_text_length(text, &length) == PYLOCK_EMPTY)
        return PYLOCK_OK;
    bytes = malloc(length + 1);
    if (bytes) {
        pylock_text_copy(text, bytes, length, &length);
        fwrite(bytes, 1, length, stdout);
    }
    pylock_text_free(text);
    free(bytes);
    return bytes ? PYLOCK_OK : PYLOCK_MEMORY;
}

int main(int count, char **words)
{
    pylock_session session = {0};
    pylock_text text = {0};
    uint8_t *lock, *environment;
    size_t lock_length, environment_length;
    uint64_t judged;
    bool is_plan = false;
    int32_t code;
    if (count != 4)
        return 2;
    lock = read_file(words[1], &lock_length);
    environment = read_file(words[2], &environment_length);
    code = pylock_session_start(&session, lock, lock_length, environment, environment_length, &text);
    free(lock); /* the session keeps what it needs of both */
    free(environment);
    if (code == PYLOCK_OK)
        code = pylock_session_add_extra(&session, (uint8_t *)words[3], strlen(words[3]), &judged);
    if (code == PYLOCK_OK)
        code = pylock_session_answer(&session, false, &text, &is_plan);
    pylock_session_free(&session);
    if (print(&text) != PYLOCK_OK) /* the plan or the fault, or the words of a refused file */
        code = PYLOCK_MEMORY;
    if (code != PYLOCK_OK)
        fprintf(stderr, "plan: code %d of pylock.h\n", (int)code);
    return code == PYLOCK_OK ? !is_plan : code == PYLOCK_MEMORY ? 3 : 2;
}
