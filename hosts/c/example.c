/* Lays the values 1 and 2 out by the format <!4 b i, and prints the record. */
#include "digribbon.h"
#include <inttypes.h>
#include <stdio.h>

int main(void)
{
    static const uint8_t format[] = {'<', '!', '4', ' ', 'b', ' ', 'i'};
    static const uint8_t values[] = {
        1, 0, 8, 0, 0, 0, 0, 0, 0, 0, 1, /* tag, length of the content, content: the integer 1 */
        1, 0, 8, 0, 0, 0, 0, 0, 0, 0, 2, /* the integer 2 */
    };
    uint8_t record[16];
    uint64_t length;
    uint64_t number = digribbon_pack(format, sizeof format, values, sizeof values, record, sizeof record, &length);
    if (number != 0) {
        printf("refused %" PRIu64 "\n", number);
        return 1;
    }
    for (uint64_t i = 0; i < length; i++)
        printf("%02X%c", (unsigned)record[i], i + 1 < length ? ' ' : '\n');
    return 0;
}
