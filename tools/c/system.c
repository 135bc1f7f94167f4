/* What the program asks of the system beside the C library's own functions, for a processor for which the kit has no archive of
   it: the last error and the words of the command line. It takes no header, so that the kit alone compiles it. */
typedef __SIZE_TYPE__ size_t;
typedef __PTRDIFF_TYPE__ ssize_t;
typedef __INT32_TYPE__ int32_t;

/* where the C library has errno */
int *__errno_location(void);

int32_t rattle_errno(void)
{
    return *__errno_location();
}

void rattle_set_errno(int32_t error)
{
    *__errno_location() = error;
}

static size_t count;
static char **words;

/* glibc calls what stands in .init_array with what main gets */
static void keep_words(int argc, char **argv)
{
    count = (size_t)argc;
    words = argv;
}
__attribute__((section(".init_array"), used)) static void (*const keep)(int, char **) = keep_words;

size_t rattle_arg_count(void)
{
    return count;
}

/* the word at the front of `buffer`: its length; -1 where there is none; -2 where it doesn't fit, and then `buffer` is full */
ssize_t rattle_arg(size_t i, unsigned char *buffer, size_t room)
{
    const char *word = i < count ? words[i] : 0;
    size_t length = 0;
    if (!word) return -1;
    for (; word[length]; length++) {
        if (length == room) return -2;
        buffer[length] = (unsigned char)word[length];
    }
    return (ssize_t)length;
}
