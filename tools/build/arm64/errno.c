// The number of the last error of a system call. The toolchain's library `os` names both functions in os/src/c.rt, and
// states nothing of their answers. Its comment on `errno` says that it is the one of the calling thread.
#include <errno.h>

int rattle_errno(void)
{
    return errno;
}

void rattle_set_errno(int error)
{
    errno = error;
}
