/* Prints stamp and outside temperature of each record of a file of pages: the same lines as `station pages FILE`, by hand
   for the least time. The file is read whole into memory, as the station reads it; the check of a page folds 16 bytes at a
   time by carry-less multiplication; lines wait in a buffer of 64 KiB. It is here to be measured against. */
#pragma GCC target("pclmul,sse4.1")
#include <fcntl.h>
#include <immintrin.h>
#include <stdint.h>
#include <stdlib.h>
#include <string.h>
#include <sys/stat.h>
#include <unistd.h>

#include "stamp.h"

enum { PAGE = 267, FIRST_SLOT = 1, SLOT = 52, SLOTS = 5, TIME = 2, OUTSIDE = 4, REVISION = 42, MISSING = 32767 };
enum { BLOCK = 16, BLOCKS = PAGE / BLOCK, FRONT = PAGE % BLOCK, POLYNOMIAL = 0x1021 };
enum { PIECE = 1 << 16, LINE = 64 };
enum { DONE = 0, NO_FILE = 8, WRITE_FAULT = 9, BAD_PAGE = 14 };

static uint16_t remainders[BLOCK][256]; /* of a byte with so many bytes behind it */
static uint64_t low_power, high_power;  /* the remainders of x^128 and x^192 */
static char pairs[100][2];
static char out[PIECE + SLOTS * LINE];

static uint16_t times_x(uint16_t rest) {
    return (uint16_t)(rest & 0x8000 ? rest << 1 ^ POLYNOMIAL : rest << 1);
}

static uint16_t power_of_x(int exponent) {
    uint16_t rest = 1;
    while (exponent-- > 0)
        rest = times_x(rest);
    return rest;
}

static void fill_tables(void) {
    for (int behind = 0; behind < BLOCK; behind++)
        for (int bit = 0; bit < 8; bit++) {
            uint16_t rest = power_of_x(16 + 8 * behind + bit);
            for (int byte = 0; byte < 256; byte++)
                remainders[behind][byte] ^= byte >> bit & 1 ? rest : 0;
        }
    low_power = power_of_x(128);
    high_power = power_of_x(192);
    for (int i = 0; i < 100; i++) {
        pairs[i][0] = (char)('0' + i / 10);
        pairs[i][1] = (char)('0' + i % 10);
    }
}

/* A page is a block with zeros in front, and 16 whole ones. */
static int is_good(const uint8_t *page) {
    const __m128i turn = _mm_set_epi8(0, 1, 2, 3, 4, 5, 6, 7, 8, 9, 10, 11, 12, 13, 14, 15);
    const __m128i powers = _mm_set_epi64x((long long)high_power, (long long)low_power);
    uint8_t bytes[BLOCK] = {0};
    memcpy(bytes + BLOCK - FRONT, page, FRONT);
    __m128i rest = _mm_shuffle_epi8(_mm_loadu_si128((const __m128i *)bytes), turn);
    for (int i = 0; i < BLOCKS; i++) {
        __m128i block = _mm_loadu_si128((const __m128i *)(page + FRONT + BLOCK * i));
        __m128i low = _mm_clmulepi64_si128(rest, powers, 0x00), high = _mm_clmulepi64_si128(rest, powers, 0x11);
        rest = _mm_xor_si128(_mm_shuffle_epi8(block, turn), _mm_xor_si128(low, high));
    }
    _mm_storeu_si128((__m128i *)bytes, _mm_shuffle_epi8(rest, turn));
    uint16_t check = 0;
    for (int i = 0; i < BLOCK; i++)
        check ^= remainders[BLOCK - 1 - i][bytes[i]];
    return check == 0;
}

static unsigned word(const uint8_t *bytes) {
    return bytes[0] | (unsigned)bytes[1] << 8;
}

static int is_empty(const uint8_t *slot) {
    return slot[0] == 0xFF && memcmp(slot, slot + 1, SLOT - 1) == 0;
}

static char *print_text(char *to, const char *text) {
    size_t length = strlen(text);
    memcpy(to, text, length);
    return to + length;
}

static char *print_number(char *to, size_t value) {
    char digits[20];
    int count = 0;
    do
        digits[count++] = (char)('0' + value % 10);
    while (value /= 10);
    while (count > 0)
        *to++ = digits[--count];
    return to;
}

static char *print_place(char *to, size_t page, int place) {
    return print_number(print_text(print_number(print_text(to, "page "), page), " place "), (size_t)place);
}

static char *print_stamp(char *to, unsigned date, unsigned time) {
    memcpy(to, "20YY-MM-DD HH:MM ", 17);
    memcpy(to, pairs[20 + date / 512 / 100], 2);
    memcpy(to + 2, pairs[date / 512 % 100], 2);
    memcpy(to + 5, pairs[date / 32 % 16], 2);
    memcpy(to + 8, pairs[date % 32], 2);
    memcpy(to + 11, pairs[time / 100], 2);
    memcpy(to + 14, pairs[time % 100], 2);
    return to + 17;
}

static char *print_slot(char *to, size_t page, int place, const uint8_t *slot) {
    unsigned date = word(slot), time = word(slot + TIME), outside = word(slot + OUTSIDE);
    if (is_empty(slot))
        return to;
    if (slot[REVISION] != 0)
        to = print_number(print_text(print_place(to, page, place), " revision "), slot[REVISION]);
    else if (!is_stamp(date, time))
        to = print_number(print_text(print_number(print_text(print_place(to, page, place), " stamp "), date), " "), time);
    else {
        to = print_stamp(to, date, time);
        if (outside >= 1 << 15 || outside == MISSING)
            *to++ = '-';
        if (outside != MISSING)
            to = print_number(to, outside >= 1 << 15 ? (1 << 16) - outside : outside);
    }
    *to++ = '\n';
    return to;
}

static int write_all(const char *from, const char *to, int status) {
    while (from < to) {
        ssize_t count = write(STDOUT_FILENO, from, (size_t)(to - from));
        if (count <= 0)
            return WRITE_FAULT;
        from += count;
    }
    return status;
}

static int print_pages(const uint8_t *bytes, size_t size) {
    char *end = out;
    for (size_t page = 0; PAGE * page < size; page++) {
        const uint8_t *at = bytes + PAGE * page;
        if (size - PAGE * page < PAGE || !is_good(at)) {
            end = print_text(print_number(print_text(end, "bad page "), page), "\n");
            return write_all(out, end, BAD_PAGE);
        }
        for (int place = 0; place < SLOTS; place++)
            end = print_slot(end, page, place, at + FIRST_SLOT + SLOT * place);
        if (end - out >= PIECE) {
            if (write_all(out, end, DONE) != DONE)
                return WRITE_FAULT;
            end = out;
        }
    }
    return write_all(out, end, DONE);
}

int main(int count, char **words) {
    int file = count == 2 ? open(words[1], O_RDONLY) : -1;
    struct stat about;
    if (file < 0 || fstat(file, &about) != 0)
        return NO_FILE;
    size_t size = (size_t)about.st_size, done = 0;
    uint8_t *bytes = malloc(size + 1);
    while (bytes && done < size) {
        ssize_t got = read(file, bytes + done, size - done);
        if (got <= 0)
            return NO_FILE;
        done += (size_t)got;
    }
    fill_tables();
    return bytes ? print_pages(bytes, size) : NO_FILE;
}
