/* What the programs of crates/ ask of the kit's `os` in C, where the kit's own archive, x86-64 code, can't be linked.
 * The kit's rattle/os/src/c.rt says what each answers. A slice comes as a pointer and a length. */
#include <errno.h>
#include <fcntl.h>
#include <stddef.h>
#include <stdint.h>
#include <string.h>
#include <sys/types.h>

static size_t count;
static char **words;

/* Before main: glibc hands a constructor the arguments too. */
__attribute__((constructor)) static void keep(int given, char **arguments)
{
    count = (size_t)given;
    words = arguments;
}

size_t rattle_arg_count(void)
{
    return count;
}

/* Argument i at the start of buf: its length; -1 if there is none, -2 if it does not fit. */
ssize_t rattle_arg(size_t i, uint8_t *buf, size_t room)
{
    if (i >= count) {
        return -1;
    }
    size_t length = strlen(words[i]);
    memcpy(buf, words[i], length < room ? length : room);
    return length <= room ? (ssize_t)length : -2;
}

int32_t rattle_open_to_read(const char *path)
{
    return open(path, O_RDONLY | O_NOCTTY | O_CLOEXEC);
}

int32_t rattle_errno(void)
{
    return errno;
}

void rattle_set_errno(int32_t error)
{
    errno = error;
}
