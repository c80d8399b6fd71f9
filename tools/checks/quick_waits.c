// Preloaded by tools/checks/try_stay.py. Each wait for a byte of a line takes its time divided by QUICKER, a number of the environment.
#include <stdlib.h>
#include <string.h>
#include <sys/socket.h>
#include <sys/syscall.h>
#include <sys/time.h>
#include <unistd.h>

enum { MICROS = 1000000 };

static long quicker(void) {
    const char *given = getenv("QUICKER");
    long number = given ? strtol(given, NULL, 10) : 1;
    return number > 0 ? number : 1;
}

int setsockopt(int socket, int level, int option, const void *value, socklen_t size) {
    struct timeval wait;
    if (level == SOL_SOCKET && option == SO_RCVTIMEO && size == sizeof wait) {
        memcpy(&wait, value, sizeof wait);
        long micros = (wait.tv_sec * MICROS + wait.tv_usec) / quicker();
        wait.tv_sec = micros / MICROS;
        wait.tv_usec = micros % MICROS;
        value = &wait;
    }
    return (int)syscall(SYS_setsockopt, socket, level, option, value, size);
}
