/* Lays three records out by the format <!2 b h, back to back, and prints the tray. */
#include "digribbon.h"
#include <inttypes.h>
#include <stdio.h>

#define PAIR(b, h) /* a list of two integers of 0 to 255, behind its length */ \
    0, 22, 1, 0, 8, 0, 0, 0, 0, 0, 0, 0, (b), 1, 0, 8, 0, 0, 0, 0, 0, 0, 0, (h)

int main(void)
{
    static const uint8_t format[] = {'<', '!', '2', ' ', 'b', ' ', 'h'};
    static const uint8_t run[] = {PAIR(1, 10), PAIR(2, 20), PAIR(3, 30)};
    uint8_t tray[16];
    uint64_t place, length;
    uint64_t number = digribbon_pack_tray(format, sizeof format, run, sizeof run, tray, sizeof tray, &place, &length);
    if (number != 0) {
        printf("refused %" PRIu64 ", place %" PRIu64 "\n", number, place);
        return 1;
    }
    for (uint64_t i = 0; i < length; i++)
        printf("%02X%c", (unsigned)tray[i], i + 1 < length ? ' ' : '\n');
    return 0;
}
