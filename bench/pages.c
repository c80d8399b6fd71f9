/* Prints stamp and outside temperature of each record of a file of pages: the same job as `station pages FILE`,
   with a table of 256 entries for the check and a buffered stream. It is here to be measured against. */
#include <stdint.h>
#include <stdio.h>
#include <stdlib.h>
#include <string.h>

#include "stamp.h"

enum { PAGE = 267, SLOT = 52, SLOTS = 5 };

static uint16_t table[256];

static void fill_table(void) {
    for (int byte = 0; byte < 256; byte++) {
        uint16_t rest = (uint16_t)(byte << 8);
        for (int bit = 0; bit < 8; bit++)
            rest = (uint16_t)(rest & 0x8000 ? rest << 1 ^ 0x1021 : rest << 1);
        table[byte] = rest;
    }
}

static uint16_t crc(const uint8_t *bytes, size_t length) {
    uint16_t rest = 0;
    for (size_t i = 0; i < length; i++)
        rest = (uint16_t)(rest << 8 ^ table[(rest >> 8 ^ bytes[i]) & 0xFF]);
    return rest;
}

static unsigned word(const uint8_t *bytes) {
    return bytes[0] | (unsigned)bytes[1] << 8;
}

static int is_empty(const uint8_t *slot) {
    for (int i = 0; i < SLOT; i++)
        if (slot[i] != 0xFF)
            return 0;
    return 1;
}

static void print_slot(size_t page, int place, const uint8_t *slot) {
    if (is_empty(slot))
        return;
    unsigned date = word(slot), time = word(slot + 2);
    if (slot[42] != 0)
        printf("page %zu place %d revision %u\n", page, place, slot[42]);
    else if (!is_stamp(date, time))
        printf("page %zu place %d stamp %u %u\n", page, place, date, time);
    else {
        int16_t outside = (int16_t)word(slot + 4);
        printf("%04u-%02u-%02u %02u:%02u ", 2000 + date / 512, date / 32 % 16, date % 32, time / 100, time % 100);
        if (outside == 32767)
            puts("-");
        else
            printf("%d\n", outside);
    }
}

int main(int count, char **words) {
    FILE *file = count == 2 ? fopen(words[1], "rb") : NULL;
    if (!file)
        return 8;
    static char buffer[1 << 16];
    setvbuf(stdout, buffer, _IOFBF, sizeof buffer);
    fill_table();
    uint8_t page[PAGE];
    size_t number = 0, length;
    while ((length = fread(page, 1, PAGE, file)) > 0) {
        if (length < PAGE || crc(page, PAGE) != 0) {
            printf("bad page %zu\n", number);
            return 14;
        }
        for (int place = 0; place < SLOTS; place++)
            print_slot(number, place, page + 1 + SLOT * place);
        number++;
    }
    return 0;
}
