/* Whether the two words of a record name a minute of the calendar: what the programs in C of this folder share. */
static int is_stamp(unsigned date, unsigned time) {
    static const unsigned days[] = {31, 28, 31, 30, 31, 30, 31, 31, 30, 31, 30, 31};
    unsigned year = 2000 + date / 512, month = date / 32 % 16, day = date % 32;
    if (month < 1 || month > 12 || time / 100 > 23 || time % 100 > 59)
        return 0;
    unsigned leap = month == 2 && year % 4 == 0 && (year % 100 != 0 || year % 400 == 0);
    return day >= 1 && day <= days[month - 1] + leap;
}
