/* Prints the last valid day of a pass of 1 month from 31 January 2024: its number and its date. */
#include "digribbon.h"
#include <inttypes.h>
#include <stdio.h>

int main(void)
{
    uint64_t first, last, date[3];
    uint64_t number = digribbon_day_number(2024, 1, 31, &first);
    if (number == 0)
        number = digribbon_last_day((int64_t)first, 1, &last);
    if (number == 0)
        number = digribbon_date((int64_t)last, date);
    if (number != 0) {
        printf("refused %" PRIu64 "\n", number);
        return 1;
    }
    printf("%" PRIu64 " %04" PRIu64 "-%02" PRIu64 "-%02" PRIu64 "\n", last, date[0], date[1], date[2]);
    return 0;
}
