/*
 * The header's calls over formats and value lists, from C; ranges.c has the one over text lengths, dates.c those about
 * days and dates. The last line says how many checks passed.
 */
#include "check.h"
#include "digribbon.h"
#include <string.h>

#define ABOVE (UINT64_C(1) << 63) /* the least length that is too long */

/* ---- bytes */

typedef struct {
    const uint8_t *start;
    size_t length;
} Slice;

static Slice text(const char *text)
{
    return (Slice){(const uint8_t *)text, strlen(text)};
}

#define BYTES(...) ((Slice){(const uint8_t[]){__VA_ARGS__}, sizeof((const uint8_t[]){__VA_ARGS__})})
#define INTEGER(low) 1, 0, 8, 0, 0, 0, 0, 0, 0, (low) / 256, (low) % 256 /* an integer of 0 to 65,535 as a field */

/* Memory of its own, so that a byte outside it is seen by the address sanitizer. */
static uint8_t *lent(size_t length)
{
    uint8_t *buffer = malloc(length);
    CHECK(buffer != NULL);
    memset(buffer, 0xEE, length);
    return buffer;
}

/* The bytes expected, and behind them what was there before. */
static bool holds(const uint8_t *buffer, size_t length, Slice expected)
{
    if (memcmp(buffer, expected.start, expected.length) != 0)
        return false;
    for (size_t i = expected.length; i < length; i++)
        if (buffer[i] != 0xEE)
            return false;
    return true;
}

static bool unchanged(const uint8_t *buffer, size_t length, const uint64_t *answer, size_t words)
{
    for (size_t i = 0; i < words; i++)
        if (answer[i] != MARK)
            return false;
    return holds(buffer, length, (Slice){buffer, 0});
}

/* ---- the calls */

static void measures(const char *format, uint64_t number, uint64_t size)
{
    uint64_t answer[] = {MARK};
    CHECK(digribbon_packsize(text(format).start, text(format).length, answer) == number);
    CHECK(answer[0] == (number == 0 ? size : MARK));
}

static void bounds(const char *format, uint64_t data_length, uint64_t number, uint64_t bound)
{
    uint64_t answer[] = {MARK};
    CHECK(digribbon_list_bound(text(format).start, text(format).length, data_length, answer) == number);
    CHECK(answer[0] == (number == 0 ? bound : MARK));
}

/* Writing in a buffer of `room` bytes gives the record, or the number and no change. */
static void packs(const char *format, Slice list, size_t room, uint64_t number, Slice record)
{
    uint64_t answer[] = {MARK};
    uint8_t *buffer = lent(room);
    CHECK(digribbon_pack(text(format).start, text(format).length, list.start, list.length, buffer, room, answer) ==
          number);
    if (number == 0)
        CHECK(answer[0] == record.length && holds(buffer, room, record));
    else
        CHECK(unchanged(buffer, room, answer, 1));
    free(buffer);
}

typedef struct {
    uint64_t order, limit, length;
} State;

/* A tray in a buffer of `room` bytes gives the records, or the number, the place and no change. */
static void fills(const char *format, Slice run, size_t room, uint64_t number, uint64_t place, Slice tray)
{
    uint64_t answer[] = {MARK}, places[] = {MARK, MARK};
    uint8_t *buffer = lent(room);
    CHECK(digribbon_pack_tray(text(format).start, text(format).length, run.start, run.length, buffer, room, places,
                              answer) == number);
    CHECK(places[0] == place && places[1] == MARK);
    if (number == 0)
        CHECK(answer[0] == tray.length && holds(buffer, room, tray));
    else
        CHECK(unchanged(buffer, room, answer, 1));
    free(buffer);
}

/* The tray is refused whatever the buffer's length. */
static void refuses(const char *format, Slice run, uint64_t number, uint64_t place)
{
    static const size_t rooms[] = {0, 1, 2, 3, 64};
    for (size_t i = 0; i < sizeof rooms / sizeof rooms[0]; i++)
        fills(format, run, rooms[i], number, place, (Slice){run.start, 0});
}

/* Continued writing gives the record and the six words, or the number and no change. */
static void continues(State from, const char *format, Slice list, size_t room, uint64_t number, Slice record,
                      const uint64_t words[6])
{
    uint64_t answer[] = {MARK, MARK, MARK, MARK, MARK, MARK};
    uint8_t *buffer = lent(room);
    CHECK(digribbon_pack_continued(from.order, from.limit, from.length, text(format).start, text(format).length,
                                   list.start, list.length, buffer, room, answer) == number);
    if (number == 0)
        CHECK(memcmp(answer, words, sizeof answer) == 0 && holds(buffer, room, record));
    else
        CHECK(unchanged(buffer, room, answer, 6));
    free(buffer);
}

/* Reading gives the list and the next position, or the number and no change. */
static void unpacks(const char *format, Slice data, int64_t start, size_t room, uint64_t number, Slice list,
                    uint64_t position)
{
    uint64_t answer[] = {MARK, MARK};
    uint8_t *buffer = lent(room);
    CHECK(digribbon_unpack(text(format).start, text(format).length, data.start, data.length, start, buffer, room,
                           answer) == number);
    if (number == 0)
        CHECK(answer[0] == list.length && answer[1] == position && holds(buffer, room, list));
    else
        CHECK(unchanged(buffer, room, answer, 2));
    free(buffer);
}

static void goes_on(Slice list, uint64_t fields, uint64_t offset)
{
    uint64_t answer[] = {MARK};
    CHECK(digribbon_list_after(list.start, list.length, fields, answer) == 0);
    CHECK(answer[0] == offset);
}

/* ---- the tests */

static const Slice nothing = {(const uint8_t *)"", 0};

static void test_measuring(void)
{
    measures("", 0, 0);
    measures("<!8bn", 0, 16);
    measures("c9223372036854775807", 0, ABOVE - 1);
    measures("c9223372036854775807b", 9, 0);
    measures("!4i3", 6, 0);
    measures("z", 10, 0);
    measures("!4s3", 10, 0);
    bounds("!4s3", 100, 6, 0);
    bounds("<i3 z c4", 100, 0, 11 + 103 + 7);
    bounds("", ABOVE - 1, 0, 0);
    bounds("", ABOVE, 21, 0);
}

static void test_writing(void)
{
    packs("", nothing, 0, 0, nothing);
    packs("<!4 b i", BYTES(INTEGER(1), INTEGER(2)), 9, 0, BYTES(1, 0, 0, 0, 2, 0, 0, 0));
    packs("<!4 b i", BYTES(INTEGER(1), INTEGER(2)), 8, 0, BYTES(1, 0, 0, 0, 2, 0, 0, 0));
    packs("<!4 b i", BYTES(INTEGER(1), INTEGER(2)), 7, 22, nothing);
    packs("<s1", BYTES(3, 0, 2, 'A', 'B'), 3, 0, BYTES(2, 'A', 'B'));
    packs("<!4bs4", BYTES(INTEGER(1), 3, 0, 1, 'A'), 9, 0, BYTES(1, 0, 0, 0, 1, 0, 0, 0, 'A'));
    packs("<!4bs1", BYTES(INTEGER(1), 3, 0, 1, 'A'), 9, 0, BYTES(1, 1, 'A'));
    packs("!4s3", BYTES(3, 0, 1, 'A'), 9, 6, nothing);
    packs("<j i1", BYTES(INTEGER(1), INTEGER(200)), 9, 13, nothing);
    packs("b", BYTES(1, 0, 8), 1, 21, nothing);
}

static void test_continued_writing(void)
{
    static const uint64_t orders[] = {1, 2, 1000, UINT64_MAX};
    continues((State){0, 1, 0}, "I2", BYTES(INTEGER(258)), 2, 0, BYTES(2, 1), (uint64_t[]){0, 1, 2, 2, 1, 1});
    for (size_t i = 0; i < sizeof orders / sizeof orders[0]; i++)
        continues((State){orders[i], 1, 0}, "I2", BYTES(INTEGER(258)), 2, 0, BYTES(1, 2),
                  (uint64_t[]){1, 1, 2, 2, 1, 1});
    continues((State){0, 1, 0}, "<!4 b", BYTES(INTEGER(1), INTEGER(2)), 3, 0, BYTES(1),
              (uint64_t[]){0, 4, 1, 1, 1, 3});
    continues((State){0, 4, 1}, "> i", BYTES(INTEGER(2)), 7, 0, BYTES(0, 0, 0, 0, 0, 0, 2),
              (uint64_t[]){1, 4, 8, 7, 1, 2});
    continues((State){0, 4, 1}, "> i", BYTES(INTEGER(2)), 6, 22, nothing, NULL);
    continues((State){0, 4, 1}, "s2", BYTES(3, 0, 1, 'A'), 4, 0, BYTES(0, 1, 0, 'A'), (uint64_t[]){0, 4, 5, 4, 1, 1});
    continues((State){0, 3, 0}, "", nothing, 1, 21, nothing, NULL);
    continues((State){0, 1, ABOVE}, "", nothing, 1, 21, nothing, NULL);
}

/* Where each part is lent as many fields as its format has bytes, the parts are the whole. */
static void test_parts(void)
{
    static const char *const parts[] = {"<!4 b", "", "Xi4", "i", "s1 h", "z"};
    Slice list = BYTES(INTEGER(1), INTEGER(2), 3, 0, 2, 'A', 'B', INTEGER(3), 3, 0, 1, 'C', INTEGER(4));
    Slice whole = BYTES(1, 0, 0, 0, 2, 0, 0, 0, 2, 'A', 'B', 0, 3, 0, 'C', 0);
    uint8_t *record = lent(16);
    uint64_t from[6] = {0, 1, 0, 0, 0, 0}, fields, used, written = 0;
    packs("<!4 bXi4is1 hz", list, 16, 0, whole);
    for (size_t i = 0; i < sizeof parts / sizeof parts[0]; i++) {
        Slice format = text(parts[i]);
        CHECK(digribbon_list_after(list.start, list.length, format.length, &fields) == 0);
        CHECK(digribbon_pack_continued(from[0], from[1], from[2], format.start, format.length, list.start, fields,
                                       record + written, 16 - written, from) == 0);
        CHECK(digribbon_list_after(list.start, fields, from[4], &used) == 0);
        list = (Slice){list.start + used, list.length - used};
        written += from[3];
    }
    CHECK(written == 16 && holds(record, 16, whole) && list.length == 11);
    free(record);
}

/* Three times the room that the header's sum has for a record suffices for a tray of three. */
static void suffices(Slice format, Slice list, size_t room, uint64_t length)
{
    uint8_t run[3 * 32], *tray = lent(3 * room);
    uint64_t place[1], answer[1];
    for (size_t i = 0; i < 3; i++) {
        uint8_t *at = run + i * (2 + list.length);
        at[0] = 0;
        at[1] = (uint8_t)list.length;
        memcpy(at + 2, list.start, list.length);
    }
    CHECK(digribbon_pack_tray(format.start, format.length, run, 3 * (2 + list.length), tray, 3 * room, place,
                              answer) == 0);
    CHECK(place[0] == 0 && answer[0] == 3 * length);
    free(tray);
}

/* The header's sums for buffers suffice for the longest items: aligned integers and lengths, fills, texts. */
static void test_sums(void)
{
    static const struct {
        const char *format;
        size_t numerals;
    } longest[] = {{"!16bi16", 0}, {"!8bj", 0}, {"!8bs", 0}, {"!16bs16", 0}, {"bc300", 300}, {"!16bXi16", 0}, {"bz", 0}};
    for (size_t i = 0; i < sizeof longest / sizeof longest[0]; i++) {
        Slice format = text(longest[i].format);
        bool takes_text = strpbrk(longest[i].format, "scz") != NULL;
        Slice list = takes_text ? BYTES(INTEGER(1), 3, 0, 1, 'A') : BYTES(INTEGER(1), INTEGER(2));
        size_t room = list.length + 16 * format.length + longest[i].numerals;
        uint8_t *record = lent(room), *values;
        uint64_t answer[2];
        CHECK(digribbon_pack(format.start, format.length, list.start, list.length, record, room, answer) == 0);
        Slice data = {record, answer[0]};
        CHECK(digribbon_pack(format.start, format.length, list.start, list.length, record, data.length - 1, answer) ==
              DIGRIBBON_RESULT_TOO_LONG);
        suffices(format, list, room, data.length);
        room = 11 * format.length + data.length;
        values = lent(room);
        CHECK(digribbon_unpack(format.start, format.length, data.start, data.length, 1, values, room, answer) == 0);
        CHECK(answer[1] == data.length + 1);
        free(values);
        free(record);
    }
}

/* Lists behind their lengths: of one integer, of three, of a text with a letter, of two empty texts. */
#define ONE(low) 0, 11, INTEGER(low)
#define THREE(a, b, c) 0, 33, INTEGER(a), INTEGER(b), INTEGER(c)
#define LETTER 0, 4, 3, 0, 1, 'A'
#define TWO_EMPTY 0, 6, 3, 0, 0, 3, 0, 0

/* Each record is laid out as if alone: order, limit and length begin anew. */
static void test_trays(void)
{
    Slice run = BYTES(THREE(1, 2, 3), THREE(4, 5, 6)), tray = BYTES(1, 0, 2, 0, 3, 4, 0, 5, 0, 6);
    for (size_t room = 10; room <= 12; room++)
        fills("<!2 b h b", run, room, 0, 0, tray);
    for (size_t room = 0; room < 10; room++)
        fills("<!2 b h b", run, room, DIGRIBBON_RESULT_TOO_LONG, 0, nothing);
    fills("I2 > I2", BYTES(THREE(258, 258, 0), THREE(1, 1, 0)), 8, 0, 0, BYTES(2, 1, 1, 2, 1, 0, 0, 1));
    fills("s1", BYTES(LETTER, 0, 3, 3, 0, 0, LETTER), 9, 0, 0, BYTES(1, 'A', 0, 1, 'A'));
    fills("b", BYTES(ONE(7)), 1, 0, 0, BYTES(7));
    fills("b", BYTES(THREE(7, 8, 9), ONE(1)), 2, 0, 0, BYTES(7, 1)); /* values that are left over are ignored */
    fills("", BYTES(0, 0, ONE(1), 0, 0), 0, 0, 0, nothing);
    fills("x", BYTES(0, 0, 0, 0), 3, 0, 0, BYTES(0, 0));
}

/* Nothing of a format is looked at where there is no record. */
static void test_empty_run(void)
{
    static const char *const formats[] = {"", "b", "q", "c", "!3", "z q", "c9223372036854775807 b"};
    for (size_t i = 0; i < sizeof formats / sizeof formats[0]; i++) {
        fills(formats[i], nothing, 0, 0, 0, nothing);
        fills(formats[i], nothing, 3, 0, 0, nothing);
    }
}

/* A list of 65,535 bytes, the longest, between two short ones. */
static void test_longest_list(void)
{
    enum { LONG = 65532, RUN = 6 + 5 + LONG + 6, TRAY = 2 + LONG + 1 + 2 };
    uint8_t *run = lent(RUN), *tray = lent(TRAY);
    memcpy(run, BYTES(LETTER, 0xFF, 0xFF, 3, LONG / 256, LONG % 256).start, 11);
    memset(run + 11, 'B', LONG);
    memcpy(run + 11 + LONG, BYTES(LETTER).start, 6);
    memcpy(tray, "A", 2);
    memset(tray + 2, 'B', LONG);
    memcpy(tray + 2 + LONG, "\0A", 3);
    fills("z", (Slice){run, RUN}, TRAY, 0, 0, (Slice){tray, TRAY});
    fills("z", (Slice){run, RUN}, TRAY - 1, DIGRIBBON_RESULT_TOO_LONG, 0, nothing);
    refuses("s1", (Slice){run, RUN}, DIGRIBBON_TEXT_DOES_NOT_FIT, 2);
    refuses("z", (Slice){run, RUN - 1}, DIGRIBBON_DAMAGED_RUN, 0);
    free(tray);
    free(run);
}

/* 23 comes before any record, whatever the format and the lists are. */
static void test_damaged_runs(void)
{
    static const char *const formats[] = {"", "b", "q", "i1"};
    Slice whole = BYTES(ONE(200), 0, 1, 9, 0, 0, ONE(1)); /* 13 at place 1, 21 at place 2, 11 at place 3 */
    for (size_t i = 0; i < sizeof formats / sizeof formats[0]; i++) {
        for (size_t end = 1; end < whole.length; end++)
            if (end != 13 && end != 16 && end != 18)
                refuses(formats[i], (Slice){whole.start, end}, DIGRIBBON_DAMAGED_RUN, 0);
        refuses(formats[i], BYTES(0), DIGRIBBON_DAMAGED_RUN, 0);
        refuses(formats[i], BYTES(0, 1), DIGRIBBON_DAMAGED_RUN, 0);
        refuses(formats[i], BYTES(1, 0), DIGRIBBON_DAMAGED_RUN, 0);
        refuses(formats[i], BYTES(0xFF, 0xFF, 0), DIGRIBBON_DAMAGED_RUN, 0);
        refuses(formats[i], BYTES(0, 0, 0, 0, 0), DIGRIBBON_DAMAGED_RUN, 0);
    }
}

/* The first refused record decides, with its place, whatever the buffer's length. */
static void test_refused_records(void)
{
    refuses("q", BYTES(0, 0), 1, 1);
    refuses("q", BYTES(ONE(1), ONE(2)), 1, 1);
    refuses("b q", BYTES(ONE(1), 0, 0), 1, 1);
    refuses("b q", BYTES(0, 0, ONE(1)), 11, 1);
    refuses("!4 i3", BYTES(ONE(1)), 6, 1);
    refuses("i1", BYTES(ONE(200), ONE(1), ONE(2)), 13, 1);
    refuses("i1", BYTES(ONE(1), ONE(200), ONE(2)), 13, 2);
    refuses("i1", BYTES(ONE(1), ONE(2), ONE(200)), 13, 3);
    refuses("i1", BYTES(ONE(1), ONE(200), 0, 0), 13, 2);
    refuses("i1", BYTES(ONE(1), 0, 0, ONE(200)), 11, 2);
    refuses("b", BYTES(ONE(1), LETTER), 12, 2);
    refuses("z", BYTES(LETTER, LETTER, 0, 4, 3, 0, 1, 0), 14, 3);
    refuses("c0", BYTES(TWO_EMPTY, LETTER), 15, 2);
    refuses("i1", BYTES(0, 1, 9, ONE(200)), 21, 1); /* 21 in its record's turn */
    refuses("i1", BYTES(ONE(200), 0, 1, 9), 13, 1);
    refuses("i1", BYTES(ONE(1), 0, 1, 9, ONE(200)), 21, 2);
    refuses("q", BYTES(0, 1, 9), 21, 1);
    refuses("b", BYTES(ONE(1), 0, 3, 1, 0, 8, 0, 0, 0, 0, 0, 0, 0, 0), 21, 2); /* a field ends in its own list */
}

/* Trays that are far above 2^64 bytes: 22 after all records, no 9, and nothing wraps around. */
static void test_huge_trays(void)
{
    static const char longest[] = "c9223372036854775807"; /* 2^63 - 1 */
    refuses(longest, BYTES(LETTER), 22, 0);
    refuses(longest, BYTES(LETTER, LETTER), 22, 0);
    refuses(longest, BYTES(LETTER, LETTER, LETTER), 22, 0);
    refuses(longest, BYTES(LETTER, LETTER, LETTER, ONE(1)), 12, 4);
    refuses(longest, BYTES(LETTER, ONE(1), LETTER, 0, 0), 12, 2);
    refuses(longest, BYTES(LETTER, LETTER, LETTER, LETTER, LETTER), 22, 0);
    refuses("c9223372036854775807 x", BYTES(LETTER, LETTER), 9, 1);
    refuses("c9223372036854775807 z", BYTES(LETTER, TWO_EMPTY), 11, 1);
    refuses("c9223372036854775807 z", BYTES(TWO_EMPTY, LETTER), 9, 1);
    refuses("c4611686018427387904", BYTES(LETTER, LETTER, LETTER, LETTER), 22, 0); /* 4 times 2^62: 2^64 */
    refuses("c6148914691236517206", BYTES(LETTER, LETTER, LETTER), 22, 0);         /* 3 times: 2^64 + 2 */
}

static void test_reading(void)
{
    Slice minus_2 = BYTES(1, 0, 8, 0xFF, 0xFF, 0xFF, 0xFF, 0xFF, 0xFF, 0xFF, 0xFE);
    unpacks("<i3", BYTES(0xFE, 0xFF, 0xFF), 1, 12, 0, minus_2, 4);
    unpacks("<i3", BYTES(7, 0xFE, 0xFF, 0xFF), -3, 11, 0, minus_2, 5);
    unpacks("<i3", BYTES(0xFE, 0xFF, 0xFF), 1, 10, 22, nothing, 0);
    unpacks("", BYTES(1), 2, 0, 0, nothing, 2);
    unpacks("", BYTES(1), 0, 1, 16, nothing, 0);
    unpacks("b", BYTES(1), 2, 11, 17, nothing, 0);
    unpacks("s1", BYTES(2, 'A', 'B'), 1, 5, 0, BYTES(3, 0, 2, 'A', 'B'), 4);
}

static void test_list_after(void)
{
    Slice list = BYTES(INTEGER(7), 3, 0, 2, 'A', 'B', 0, 0, 0);
    goes_on(list, 0, 0);
    goes_on(list, 1, 11);
    goes_on(list, 2, 16);
    goes_on(list, 3, 19);
    goes_on(list, 4, 19);
    goes_on(list, UINT64_MAX, 19);
    goes_on(nothing, 1, 0);
}

/* The table has the numbers 1 to 27, each with a name, a cause and a sentence. */
static void test_table(void)
{
    unsigned last = 0;
#define NEXT(number, name, cause, sentence) \
    CHECK(number == ++last && name == number && strlen(cause) > 0 && sentence[strlen(sentence) - 1] == '.');
    DIGRIBBON_REFUSALS(NEXT)
    CHECK(last == 27 && DIGRIBBON_RESULT_TOO_LONG == 22 && DIGRIBBON_DAMAGED_RUN == 23);
    CHECK(DIGRIBBON_NO_SUCH_DATE == 24 && DIGRIBBON_DAY_TOO_LARGE == 25 && DIGRIBBON_MONTHS_OUTSIDE == 26);
    CHECK(DIGRIBBON_LEAST_ABOVE_GREATEST == 27);
}

static void test_version(void)
{
    char version[16];
    snprintf(version, sizeof version, "%d.%d.%d", DIGRIBBON_VERSION_NUMBER / 10000,
             DIGRIBBON_VERSION_NUMBER / 100 % 100, DIGRIBBON_VERSION_NUMBER % 100);
    CHECK(strcmp(version, DIGRIBBON_VERSION) == 0);
}

int main(void)
{
    test_measuring();
    test_writing();
    test_continued_writing();
    test_parts();
    test_sums();
    test_trays();
    test_empty_run();
    test_longest_list();
    test_damaged_runs();
    test_refused_records();
    test_huge_trays();
    test_reading();
    test_list_after();
    test_table();
    test_version();
    printf("%u checks passed in C\n", passed);
    return 0;
}
