// Whether calls wait. The toolchain's library `os` states this function in os/src/c.rt.
#include <stdbool.h>
#include <sys/ioctl.h>

// Stated: sets or clears O_NONBLOCK of what the descriptor is open on, and answers 0 or -1.
int rattle_set_nonblocking(int descriptor, bool on)
{
    int value = on;
    return ioctl(descriptor, FIONBIO, &value);
}
