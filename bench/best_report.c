/* Opens an archive of the second version, and prints the line of each of its rows if there is a second word:

       best_report ARCHIVE [rows]

   It does by hand what `station report ARCHIVE rows FIRST LAST` does over all days: it follows the batches, judges each
   slot, and adds up each day to compare it with the slots that close it. It reads the file once, 1,024 slots at a time, and
   so prints rows before it has judged those behind them. The log ends where the file does, and not at the first closed
   gate. It is here to be measured against, and reads numbers as a processor with the low byte first has them. */
#include <fcntl.h>
#include <stdint.h>
#include <string.h>
#include <unistd.h>

#include "stamp.h"

enum { SLOT = 176, SLOTS = 1024, FIELDS = 37, PARTS = 13, SUMS = 3, GREATEST = 2000000 };
enum { KIND = 1, BATCH = 2, DATE = 4, TIME = 6, MINUTES = 8, SPARE = 10, PRESENCE = 12, VALUES = 20, LIMITED = 168 };
enum { ROW_KIND = 1, PART_KIND = 2, DAY = 4, PART = 8, ROWS = 12, GAP = 16, PART_SUMS = 24, BEHIND_SUMS = 156 };
enum { PIECE = 1 << 16, LINE = 1024 };
enum { DONE = 0, NO_FILE = 8, WRITE_FAULT = 9, DAMAGED = 11 };

struct name { unsigned length; char text[16]; };
#define NAME(text) {sizeof text + 1, " " text "="}
static const struct name names[FIELDS] = {
    NAME("outTemp"), NAME("highOutTemp"), NAME("lowOutTemp"), NAME("rain"), NAME("highRainRate"), NAME("barometer"),
    NAME("radiation"), NAME("windSamples"), NAME("inTemp"), NAME("inHumidity"), NAME("outHumidity"), NAME("windSpeed"),
    NAME("windGust"), NAME("windGustDir"), NAME("windDir"), NAME("UV"), NAME("ET"), NAME("highRadiation"),
    NAME("highUV"), NAME("forecastRule"), NAME("leafTemp1"), NAME("leafTemp2"), NAME("leafWet1"), NAME("leafWet2"),
    NAME("soilTemp1"), NAME("soilTemp2"), NAME("soilTemp3"), NAME("soilTemp4"), NAME("extraHumid1"),
    NAME("extraHumid2"), NAME("extraTemp1"), NAME("extraTemp2"), NAME("extraTemp3"), NAME("soilMoist1"),
    NAME("soilMoist2"), NAME("soilMoist3"), NAME("soilMoist4")};

/* A sum as a closing slot has it. */
struct __attribute__((packed)) sum {
    int32_t least;
    uint32_t least_at;
    int32_t greatest;
    uint32_t greatest_at;
    int64_t sum;
    uint32_t count;
    int64_t weighted;
    uint64_t seconds;
};

/* What stands before the next slot. */
static struct {
    struct sum sums[PARTS * SUMS];
    uint32_t rows;  /* of the day */
    int32_t day;
    uint32_t stamp; /* its date above its time; 0 before the first row */
    int parts;      /* how many closing slots stand behind the last row */
    unsigned left;  /* slots of the batch */
} now;

static char pairs[100][2];
static char out[PIECE + LINE];

static uint16_t word(const uint8_t *bytes) {
    uint16_t value;
    memcpy(&value, bytes, sizeof value);
    return value;
}

static int32_t number(const uint8_t *bytes) {
    int32_t value;
    memcpy(&value, bytes, sizeof value);
    return value;
}

static uint64_t bits(const uint8_t *bytes) {
    uint64_t value;
    memcpy(&value, bytes, sizeof value);
    return value;
}

/* The archive day, from 1970-01-01 on: a row of midnight is of the day that ends. */
static int32_t day_of(unsigned date, unsigned time) {
    int32_t month = (int32_t)(date / 32 % 16), year = (int32_t)(2000 + date / 512) - (month <= 2);
    int32_t from_march = (153 * (month > 2 ? month - 3 : month + 9) + 2) / 5;
    return 365 * year + year / 4 - year / 100 + year / 400 + from_march + (int32_t)(date % 32) - 719469 - (time == 0);
}

/* Whether a console can write a row each so many minutes. */
static int is_period(unsigned minutes) {
    return minutes == 1 || minutes == 5 || minutes == 10 || minutes == 15 || minutes == 30 || minutes == 60 || minutes == 120;
}

static void add_value(struct sum *sum, int32_t value, uint32_t at, uint32_t seconds) {
    if (sum->count == 0 || value < sum->least) {
        sum->least = value;
        sum->least_at = at;
    }
    if (sum->count == 0 || value > sum->greatest) {
        sum->greatest = value;
        sum->greatest_at = at;
    }
    sum->sum += value;
    sum->count++;
    sum->weighted += (int64_t)value * seconds;
    sum->seconds += seconds;
}

/* Whether the slot is a row that may stand there. */
static int take_row(const uint8_t *slot) {
    unsigned date = word(slot + DATE), time = word(slot + TIME), minutes = word(slot + MINUTES);
    uint32_t stamp = (uint32_t)date << 16 | time;
    uint64_t presence = bits(slot + PRESENCE), limited = bits(slot + LIMITED);
    if (stamp <= now.stamp || !is_stamp(date, time) || !is_period(minutes) || word(slot + SPARE) != 0)
        return 0;
    if (presence >> FIELDS != 0 || limited >> FIELDS != 0 || (presence & limited) != 0)
        return 0;
    int32_t day = day_of(date, time);
    if (now.parts != (now.stamp != 0 && day != now.day ? PARTS : 0))
        return 0;
    if (day != now.day || now.stamp == 0) {
        memset(now.sums, 0, sizeof now.sums);
        now.rows = 0;
        now.day = day;
    }
    uint32_t at = date | time << 16;
    for (int field = 0; field < FIELDS; field++) {
        int32_t value = number(slot + VALUES + 4 * field);
        if (value < -GREATEST || value > GREATEST)
            return 0;
        if (presence >> field & 1)
            add_value(&now.sums[field], value, at, 60 * minutes);
        else if (value != 0)
            return 0;
    }
    now.stamp = stamp;
    now.rows++;
    now.parts = 0;
    return 1;
}

/* Whether the slot is the next of those that close the day. A part's number has three bytes of 0 behind it. */
static int take_part(const uint8_t *slot) {
    static const uint8_t blank[SLOT - BEHIND_SUMS];
    const uint8_t *sums = (const uint8_t *)&now.sums[SUMS * now.parts];
    int is_next = now.stamp != 0 && now.parts < PARTS && number(slot + PART) == now.parts && number(slot + DAY) == now.day
        && (uint32_t)number(slot + ROWS) == now.rows && memcmp(slot + GAP, blank, PART_SUMS - GAP) == 0
        && memcmp(slot + PART_SUMS, sums, SUMS * sizeof(struct sum)) == 0
        && memcmp(slot + BEHIND_SUMS, blank, sizeof blank) == 0;
    now.parts++;
    return is_next;
}

static int take_slot(const uint8_t *slot) {
    int is_first = now.left == 0;
    if (is_first)
        now.left = word(slot + BATCH);
    if (slot[0] != is_first || now.left == 0 || (!is_first && slot[KIND] == ROW_KIND && word(slot + BATCH) != 0))
        return 0;
    now.left--;
    return slot[KIND] == ROW_KIND ? take_row(slot) : slot[KIND] == PART_KIND && take_part(slot);
}

static char *print_number(char *to, int32_t value) {
    uint32_t rest = value < 0 ? -(uint32_t)value : (uint32_t)value;
    char digits[10];
    int count = 0;
    if (value < 0)
        *to++ = '-';
    do
        digits[count++] = (char)('0' + rest % 10);
    while (rest /= 10);
    while (count > 0)
        *to++ = digits[--count];
    return to;
}

static char *print_stamp(char *to, unsigned date, unsigned time) {
    memcpy(to, "row 20YY-MM-DD HH:MM ", 21);
    memcpy(to + 4, pairs[20 + date / 512 / 100], 2);
    memcpy(to + 6, pairs[date / 512 % 100], 2);
    memcpy(to + 9, pairs[date / 32 % 16], 2);
    memcpy(to + 12, pairs[date % 32], 2);
    memcpy(to + 15, pairs[time / 100], 2);
    memcpy(to + 18, pairs[time % 100], 2);
    return to + 21;
}

static char *print_row(char *to, const uint8_t *slot) {
    uint64_t presence = bits(slot + PRESENCE), limited = bits(slot + LIMITED);
    to = print_number(print_stamp(to, word(slot + DATE), word(slot + TIME)), word(slot + MINUTES));
    for (int field = 0; field < FIELDS; field++) {
        if (((presence | limited) >> field & 1) == 0)
            continue;
        memcpy(to, names[field].text, sizeof names[field].text);
        to += names[field].length;
        if (presence >> field & 1)
            to = print_number(to, number(slot + VALUES + 4 * field));
        else {
            memcpy(to, "limit", 5);
            to += 5;
        }
    }
    *to++ = '\n';
    return to;
}

static int write_all(const char *from, const char *to) {
    while (from < to) {
        ssize_t count = write(STDOUT_FILENO, from, (size_t)(to - from));
        if (count <= 0)
            return 0;
        from += count;
    }
    return 1;
}

/* Goes over the slots, and prints the rows among them where that is asked for. */
static int go_over(int file, int prints) {
    static uint8_t bytes[SLOT * SLOTS];
    char *end = out;
    off_t at = SLOT;
    ssize_t got;
    while ((got = pread(file, bytes, sizeof bytes, at)) >= SLOT) {
        for (ssize_t from = 0; from + SLOT <= got; from += SLOT) {
            if (!take_slot(bytes + from))
                return DAMAGED;
            if (!prints || bytes[from + KIND] != ROW_KIND)
                continue;
            end = print_row(end, bytes + from);
            if (end - out >= PIECE) {
                if (!write_all(out, end))
                    return WRITE_FAULT;
                end = out;
            }
        }
        at += got / SLOT * SLOT;
    }
    if (now.left > 0 || now.parts > 0)
        return DAMAGED;
    return write_all(out, end) ? DONE : WRITE_FAULT;
}

int main(int count, char **words) {
    int file = count >= 2 ? open(words[1], O_RDONLY) : -1;
    uint8_t head[SLOT];
    if (file < 0)
        return NO_FILE;
    if (pread(file, head, SLOT, 0) != SLOT || memcmp(head, "DVARCH02", 8) != 0)
        return DAMAGED;
    for (int i = 0; i < 100; i++) {
        pairs[i][0] = (char)('0' + i / 10);
        pairs[i][1] = (char)('0' + i % 10);
    }
    return go_over(file, count > 2);
}
