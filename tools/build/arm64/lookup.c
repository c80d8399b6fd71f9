// The addresses of a name. The toolchain's library `os` states this function in os/src/c.rt.
#include <netdb.h>
#include <stdbool.h>
#include <stddef.h>
#include <stdint.h>
#include <string.h>
#include <sys/socket.h>
#include <sys/types.h>

enum { ROOM_OF_ADDRESS = 128 };

// os/src/c.rt, RawAddr: a sockaddr_in or a sockaddr_in6 in the first `length` bytes.
struct raw_address {
    unsigned char bytes[ROOM_OF_ADDRESS];
    uint32_t length;
};

static bool is_internet(const struct addrinfo *it)
{
    return (it->ai_family == AF_INET || it->ai_family == AF_INET6) && it->ai_addrlen <= ROOM_OF_ADDRESS;
}

// Stated: getaddrinfo of POSIX. It puts the name's first addresses at the start of `found`, and answers how many, or the
// code of an error, which is negative. The name ends with a byte 0. The caller reads IPv4 and IPv6, each with port 0. Each
// address is asked once, by the kind of socket that a call over TCP has.
ssize_t rattle_lookup_host(const char *name, struct raw_address *found, size_t room)
{
    struct addrinfo wanted = {.ai_socktype = SOCK_STREAM}, *first;
    int failed = getaddrinfo(name, NULL, &wanted, &first);
    if (failed)
        return failed;
    size_t count = 0;
    for (const struct addrinfo *it = first; it && count < room; it = it->ai_next) {
        if (!is_internet(it))
            continue;
        memcpy(found[count].bytes, it->ai_addr, it->ai_addrlen);
        found[count].length = it->ai_addrlen;
        count++;
    }
    freeaddrinfo(first);
    return (ssize_t)count;
}
