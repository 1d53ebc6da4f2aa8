/* Creates a chip file before the holder's name is known, and writes the pass once it is. Prints record lengths. */
#include "digribbon.h"
#include <inttypes.h>
#include <stdio.h>
#include <stdlib.h>

#define INTEGER(low) 1, 0, 8, 0, 0, 0, 0, 0, 0, (low) / 256, (low) % 256 /* an integer of 0 to 65,535 as a field */

static int refused(uint64_t number)
{
    printf("refused %" PRIu64 "\n", number);
    return 1;
}

int main(void)
{
    static const uint8_t format[] = "<!4 I2 B z I4";     /* the pass's number, its zone, the holder's name, a day */
    static const uint8_t name_lengths[] = {0, 2, 0, 20}; /* the name has 2 to 20 bytes */
    static const uint8_t values[] = {INTEGER(258), INTEGER(7), 3, 0, 8, 'A', 'N', 'N', 'A', ' ', 'L', 'E', 'E',
                                     INTEGER(8796)};
    size_t format_len = sizeof format - 1; /* without the zero at the text's end */
    uint64_t lengths[2], length;
    uint8_t *file;
    uint64_t number = digribbon_packsize_range(format, format_len, name_lengths, sizeof name_lengths, lengths);
    if (number != 0)
        return refused(number);
    file = (uint8_t *)calloc(lengths[1], 1);
    if (file == NULL)
        return 1;
    number = digribbon_pack(format, format_len, values, sizeof values, file, lengths[1], &length);
    free(file);
    if (number != 0)
        return refused(number);
    printf("%" PRIu64 " to %" PRIu64 " bytes, %" PRIu64 " with the name\n", lengths[0], lengths[1], length);
    return 0;
}
