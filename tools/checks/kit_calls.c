// Calls the C functions that the toolchain's kit brings for x86-64, and tools/build/arm64 for arm64, and prints each answer.
// tools/checks/try_arm64.sh links it with either, runs it with the same words and with the same names on standard input, one a
// line, and compares what is printed.
#include <errno.h>
#include <fcntl.h>
#include <limits.h>
#include <stdbool.h>
#include <stdint.h>
#include <stdio.h>
#include <stdlib.h>
#include <string.h>
#include <sys/types.h>
#include <unistd.h>

enum { MOST_ROOM = 5000, MOST_FOUND = 9, MOST_NAME = 300, FILL = 0xa5, MOST_BLOCK = 1 << 20, NO_DESCRIPTOR = -1 };

struct tried {
    bool ok;
    unsigned char *p;
};
struct raw_address {
    unsigned char bytes[128];
    uint32_t length;
};

size_t rattle_arg_count(void);
ssize_t rattle_arg(size_t i, unsigned char *buf, size_t room);
int rattle_errno(void);
void rattle_set_errno(int error);
struct tried rattle_alloc(size_t size, size_t alignment);
struct tried rattle_realloc(void *p, size_t kept, size_t size, size_t alignment);
void rattle_dealloc(void *p);
ssize_t rattle_lookup_host(const char *name, struct raw_address *found, size_t room);
int rattle_set_nonblocking(int descriptor, bool on);

static const size_t ROOMS[] = {0, 1, 2, 3, 4, 5, 8, 9, 4095, 4096, MOST_ROOM};
static const size_t SIZES[] = {0, 1, 7, 8, 16, 17, 100, 4096, 70000, MOST_BLOCK};
static const size_t ALIGNMENTS[] = {1, 2, 4, 8, 16};
static const size_t FAR_TOO_MUCH = SIZE_MAX / 4;
static const int ERRORS[] = {0, 1, EAGAIN, INT_MAX, -1, INT_MIN};
#define EACH(item, list) (size_t item = 0; item < sizeof(list) / sizeof *(list); item++)

static void print_bytes(const unsigned char *bytes, size_t count)
{
    for (size_t i = 0; i < count; i++)
        printf("%02x", bytes[i]);
    putchar('\n');
}

// Each word, and the two behind the last, into rooms of each size. What lies behind a room is printed too.
static void call_for_words(void)
{
    static unsigned char buf[MOST_ROOM + 1];
    printf("words %zu\n", rattle_arg_count());
    for (size_t i = 0; i < rattle_arg_count() + 2; i++)
        for EACH(room, ROOMS) {
            memset(buf, FILL, sizeof buf);
            printf("word %zu room %zu: %zd ", i, ROOMS[room], rattle_arg(i, buf, ROOMS[room]));
            print_bytes(buf, sizeof buf);
        }
}

static void call_for_errors(void)
{
    for EACH(i, ERRORS) {
        rattle_set_errno(ERRORS[i]);
        printf("error %d: %d %d\n", ERRORS[i], rattle_errno(), errno);
    }
    close(NO_DESCRIPTOR);
    printf("error of a call: %d\n", rattle_errno());
}

static void fill(unsigned char *block, size_t size)
{
    for (size_t i = 0; i < size; i++)
        block[i] = (unsigned char)(i * 131 + i / 251 + 7);
}

static bool is_filled(const unsigned char *block, size_t size)
{
    for (size_t i = 0; i < size; i++)
        if (block[i] != (unsigned char)(i * 131 + i / 251 + 7))
            return false;
    return true;
}

// A block of one size that is filled, made one of another, and asked for more than there is.
static void call_for_a_block(size_t size, size_t next, size_t alignment)
{
    size_t kept = size < next ? size : next;
    struct tried first = rattle_alloc(size, alignment);
    printf("block %zu aligned %zu: %d %d", size, alignment, first.ok, (uintptr_t)first.p % alignment == 0);
    fill(first.p, size);
    struct tried other = rattle_realloc(first.p, kept, next, alignment);
    printf(", then %zu: %d %d %d", next, other.ok, (uintptr_t)other.p % alignment == 0, is_filled(other.p, kept));
    fill(other.p, next);
    struct tried none = rattle_realloc(other.p, next, FAR_TOO_MUCH, alignment);
    printf(", then too much: %d %d %d\n", none.ok, none.p != NULL, is_filled(other.p, next));
    rattle_dealloc(other.p);
}

static void call_for_blocks(void)
{
    struct tried none = rattle_alloc(FAR_TOO_MUCH, 1);
    printf("too much: %d %d\n", none.ok, none.p != NULL);
    for EACH(size, SIZES)
        for EACH(next, SIZES)
            for EACH(alignment, ALIGNMENTS)
                call_for_a_block(SIZES[size], SIZES[next], ALIGNMENTS[alignment]);
}

static void call_for_addresses(const char *name)
{
    static struct raw_address found[MOST_FOUND + 1];
    for (size_t room = 0; room <= MOST_FOUND; room++) {
        memset(found, FILL, sizeof found);
        printf("name %s room %zu: %zd ", name, room, rattle_lookup_host(name, found, room));
        print_bytes((const unsigned char *)found, sizeof found);
    }
}

static void print_waits(int descriptor, int answer)
{
    int error = errno;
    printf("answer %d error %d waits %d\n", answer, answer ? error : 0, !(fcntl(descriptor, F_GETFL) & O_NONBLOCK));
}

static void call_for_waits(void)
{
    int ends[2];
    if (pipe(ends))
        exit(EXIT_FAILURE);
    print_waits(ends[0], rattle_set_nonblocking(ends[0], true));
    print_waits(ends[0], rattle_set_nonblocking(ends[0], true));
    print_waits(ends[0], rattle_set_nonblocking(ends[0], false));
    print_waits(ends[0], rattle_set_nonblocking(NO_DESCRIPTOR, true));
}

int main(void)
{
    char name[MOST_NAME];
    call_for_words();
    call_for_errors();
    call_for_blocks();
    while (fgets(name, sizeof name, stdin)) {
        name[strcspn(name, "\n")] = 0;
        call_for_addresses(name);
    }
    call_for_waits();
    return 0;
}
