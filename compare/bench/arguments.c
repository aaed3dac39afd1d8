/* The functions of the kit's library `os` in C that `bench` needs: its arguments and the error number. */
#include <errno.h>
#include <string.h>
static int count;
static char **words;
__attribute__((constructor)) static void keep(int c, char **v)
{
    count = c;
    words = v;
}
unsigned long rattle_arg_count(void) { return (unsigned long)count; }
long rattle_arg(unsigned long i, void *out, unsigned long room)
{
    if (i >= (unsigned long)count)
        return -1;
    unsigned long length = strlen(words[i]);
    memcpy(out, words[i], length < room ? length : room);
    return (long)length;
}
int rattle_errno(void) { return errno; }
void rattle_set_errno(int e) { errno = e; }
