// The words that a program was started with. The toolchain's library `os` states these functions in os/src/c.rt.
#include <stddef.h>
#include <sys/types.h>

static int count;
static char **words;

// glibc passes the words of `main` to each constructor too, and runs this one before `main`.
__attribute__((constructor)) static void keep(int given_count, char **given_words)
{
    count = given_count;
    words = given_words;
}

// Stated: how many words there are, the program's own name among them.
size_t rattle_arg_count(void)
{
    return (size_t)count;
}

// Stated: puts word i at the start of buf and answers its length, -1 where there is no such word, or -2 where it does not
// fit, and then buf is full. A word has no byte 0 behind it there.
ssize_t rattle_arg(size_t i, unsigned char *buf, size_t room)
{
    if (i >= (size_t)count || !words[i])
        return -1;
    const char *word = words[i];
    size_t length = 0;
    for (; word[length]; length++) {
        if (length == room)
            return -2;
        buf[length] = (unsigned char)word[length];
    }
    return (ssize_t)length;
}
