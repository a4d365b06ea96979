/* What the kit's library os has in C and only for x86-64, as much of it as the replay program calls: for tests/bench/native. */
#include <errno.h>
#include <fcntl.h>
#include <stddef.h>

static int count;
static char **words;

/* The arguments are at hand before main is called. */
__attribute__((constructor)) static void keep(int c, char **v)
{
    count = c;
    words = v;
}

size_t rattle_arg_count(void)
{
    return (size_t)count;
}

/* Argument i into a buffer: its length, -1 where there is none, -2 where it does not fit. */
ptrdiff_t rattle_arg(size_t i, unsigned char *buffer, size_t length)
{
    size_t k;
    if (i >= (size_t)count) return -1;
    for (k = 0; words[i][k]; k++) {
        if (k == length) return -2;
        buffer[k] = (unsigned char)words[i][k];
    }
    return (ptrdiff_t)k;
}

int rattle_errno(void)
{
    return errno;
}

void rattle_set_errno(int error)
{
    errno = error;
}

int rattle_open_to_read(const char *path)
{
    return open(path, O_RDONLY | O_CLOEXEC);
}
