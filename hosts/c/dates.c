/*
 * The three calls about days and dates, from C: the examples, every day, every last day, and what is refused. The last
 * line says how many checks passed.
 *
 * What is expected comes from a calendar that is counted up day by day, and that is held to C's own gmtime.
 */
#include "check.h"
#include "digribbon.h"
#include <time.h>

enum { DAYS = 65536, MONTHS = 180 * 12 + 13 }; /* days with a number; months of 2000 to 2179, and some that follow */

typedef struct {
    int64_t year, month, day;
} Date;

/* ---- the calls, with what lies in and behind an answer */

static void numbers(Date date, uint64_t number, uint64_t day)
{
    uint64_t answer[] = {MARK, MARK};
    CHECK(digribbon_day_number(date.year, date.month, date.day, answer) == number);
    CHECK(answer[0] == (number == 0 ? day : MARK) && answer[1] == MARK);
}

static void dates(int64_t day, uint64_t number, Date date)
{
    uint64_t answer[] = {MARK, MARK, MARK, MARK};
    CHECK(digribbon_date(day, answer) == number);
    CHECK(answer[0] == (number == 0 ? (uint64_t)date.year : MARK));
    CHECK(answer[1] == (number == 0 ? (uint64_t)date.month : MARK));
    CHECK(answer[2] == (number == 0 ? (uint64_t)date.day : MARK) && answer[3] == MARK);
}

static void ends(int64_t first, int64_t months, uint64_t number, uint64_t last)
{
    uint64_t answer[] = {MARK, MARK};
    CHECK(digribbon_last_day(first, months, answer) == number);
    CHECK(answer[0] == (number == 0 ? last : MARK) && answer[1] == MARK);
}

/* ---- the calendar */

static int64_t month_length(int64_t year, int64_t month)
{
    static const int64_t lengths[] = {31, 28, 31, 30, 31, 30, 31, 31, 30, 31, 30, 31};
    bool is_leap = year % 4 == 0 && (year % 100 != 0 || year % 400 == 0);
    return lengths[month - 1] + (month == 2 && is_leap);
}

static Date calendar[DAYS];
static int64_t month_start[MONTHS + 1]; /* the number of each month's first day, January 2000 being month 0 */

static void count_days(void)
{
    int64_t day = 0;
    for (int64_t month = 0; month < MONTHS; month++) {
        int64_t year = 2000 + month / 12, length = month_length(year, month % 12 + 1);
        month_start[month] = day;
        for (int64_t i = 1; i <= length; i++, day++)
            if (day < DAYS)
                calendar[day] = (Date){year, month % 12 + 1, i};
    }
    month_start[MONTHS] = day;
    CHECK(day > DAYS + 366);
}

/* The number of a date up to 6 June 2179. */
static int64_t counted_number(Date date)
{
    return month_start[(date.year - 2000) * 12 + date.month - 1] + date.day - 1;
}

/* The last day by the request's words; it may be above 65,535. */
static int64_t counted_last_day(int64_t first, int64_t months)
{
    Date date = calendar[first];
    int64_t month = (date.year - 2000) * 12 + date.month - 1 + months;
    int64_t length = month_start[month + 1] - month_start[month];
    int64_t same_day = month_start[month] + date.day - 1;
    return date.day <= length ? same_day - 1 : month_start[month + 1] - 1;
}

/* ---- what is checked */

static void test_examples(void)
{
    numbers((Date){2000, 1, 1}, 0, 0);
    numbers((Date){2179, 6, 6}, 0, 65535);
    numbers((Date){2024, 1, 31}, 0, 8796);
    numbers((Date){2024, 2, 29}, 0, 8825);
    numbers((Date){2100, 2, 28}, 0, 36583);
    numbers((Date){2100, 2, 29}, DIGRIBBON_NO_SUCH_DATE, 0);
    numbers((Date){2100, 3, 1}, 0, 36584);
    numbers((Date){2300, 2, 30}, DIGRIBBON_NO_SUCH_DATE, 0);
    numbers((Date){2300, 1, 1}, DIGRIBBON_DAY_TOO_LARGE, 0);
    numbers((Date){2179, 6, 7}, DIGRIBBON_DAY_TOO_LARGE, 0);
    numbers((Date){1999, 12, 31}, DIGRIBBON_NO_SUCH_DATE, 0);
    dates(8796, 0, (Date){2024, 1, 31});
    dates(65535, 0, (Date){2179, 6, 6});
    ends(8796, 1, 0, 8825);  /* 31 January 2024: 29 February */
    ends(8795, 1, 0, 8825);  /* 30 January: 29 February */
    ends(8794, 1, 0, 8824);  /* 29 January: 28 February */
    ends(8825, 12, 0, 9190); /* 29 February 2024: 28 February 2025 */
    ends(65536, 13, DIGRIBBON_MONTHS_OUTSIDE, 0);
    ends(65536, 12, DIGRIBBON_DAY_TOO_LARGE, 0);
    ends(65535, 1, DIGRIBBON_DAY_TOO_LARGE, 0);
}

/* Each day there and back, by the calendar; and the calendar's days are those of C's library. */
static void test_every_day(void)
{
    for (int64_t day = 0; day < DAYS; day++) {
        time_t noon = 946684800 + day * 86400 + 43200;
        const struct tm *known = gmtime(&noon);
        Date date = calendar[day];
        CHECK(known != NULL && known->tm_year + 1900 == date.year && known->tm_mon + 1 == date.month &&
              known->tm_mday == date.day);
        numbers(date, 0, (uint64_t)day);
        dates(day, 0, date);
    }
}

static void test_every_last_day(void)
{
    for (int64_t first = 0; first < DAYS; first++)
        for (int64_t months = 1; months <= 12; months++) {
            int64_t last = counted_last_day(first, months);
            ends(first, months, last < DAYS ? 0 : DIGRIBBON_DAY_TOO_LARGE, (uint64_t)last);
        }
}

/* Numbers at and beyond every edge. The last few are small where only 32, 16 or 8 bits of them are looked at. */
static const int64_t edges[] = {
    INT64_MIN, INT64_MIN + 1, -65536, -2000, -13, -12, -1, 0, 1, 2, 3, 4, 5, 6, 7, 8, 9, 10, 11, 12, 13, 28, 29, 30, 31,
    32, 1900, 1999, 2000, 2001, 2023, 2024, 2099, 2100, 2178, 2179, 2180, 2300, 2400, 8796, 65535, 65536, 65537,
    INT64_MAX - 7, INT64_MAX - 3, INT64_MAX - 1, INT64_MAX, /* INT64_MAX - 3 is a leap year, INT64_MAX - 7 is none */
    (INT64_C(1) << 32) + 1, (INT64_C(1) << 32) + 2024, 65536 + 2024, 256 + 1, -256 + 1, -65536 + 1,
};
enum { EDGES = sizeof edges / sizeof edges[0] };

static uint64_t refusal_of_date(Date date)
{
    if (date.year < 2000 || date.month < 1 || date.month > 12 || date.day < 1 ||
        date.day > month_length(date.year, date.month))
        return DIGRIBBON_NO_SUCH_DATE;
    bool is_late = date.year > 2179 || (date.year == 2179 && (date.month > 6 || (date.month == 6 && date.day > 6)));
    return is_late ? DIGRIBBON_DAY_TOO_LARGE : 0;
}

static uint64_t refusal_of_day(int64_t day)
{
    return day < 0 ? DIGRIBBON_NO_SUCH_DATE : day >= DAYS ? DIGRIBBON_DAY_TOO_LARGE : 0;
}

static void test_edges_of_dates(void)
{
    unsigned seen[DIGRIBBON_MONTHS_OUTSIDE + 1] = {0};
    for (int y = 0; y < EDGES; y++)
        for (int m = 0; m < EDGES; m++)
            for (int d = 0; d < EDGES; d++) {
                Date date = {edges[y], edges[m], edges[d]};
                uint64_t number = refusal_of_date(date);
                seen[number]++;
                numbers(date, number, number == 0 ? (uint64_t)counted_number(date) : 0);
            }
    CHECK(seen[0] > 1000 && seen[DIGRIBBON_NO_SUCH_DATE] > 1000 && seen[DIGRIBBON_DAY_TOO_LARGE] > 1000);
}

/* 26 comes before what is wrong with the first day, 24 before 25. */
static void test_edges_of_days(void)
{
    for (int i = 0; i < EDGES; i++) {
        int64_t day = edges[i];
        uint64_t number = refusal_of_day(day);
        dates(day, number, number == 0 ? calendar[day] : (Date){0, 0, 0});
        for (int m = 0; m < EDGES; m++) {
            int64_t months = edges[m], last = 0;
            uint64_t refusal = months < 1 || months > 12 ? DIGRIBBON_MONTHS_OUTSIDE : number;
            if (refusal == 0)
                last = counted_last_day(day, months);
            ends(day, months, last < DAYS ? refusal : DIGRIBBON_DAY_TOO_LARGE, (uint64_t)last);
        }
    }
}

int main(void)
{
    count_days();
    test_examples();
    test_every_day();
    test_every_last_day();
    test_edges_of_dates();
    test_edges_of_days();
    printf("%u checks passed in C, of days and dates\n", passed);
    return 0;
}
