/*
 * digribbon_packsize_range, from C: lengths worked out by hand, the order of its checks, and the records of all texts
 * within short lengths. The last line says how many checks passed.
 */
#include "check.h"
#include "digribbon.h"
#include <string.h>

#define LARGEST (UINT64_MAX / 2) /* the greatest length of a record */

/* Text lengths, two for each pair. */
typedef struct {
    const uint16_t *start;
    size_t count;
} Lengths;

#define LENGTHS(...) \
    ((Lengths){(const uint16_t[]){__VA_ARGS__}, sizeof((const uint16_t[]){__VA_ARGS__}) / sizeof(uint16_t)})

static const Lengths none = {NULL, 0};

/* ---- the call */

static const uint8_t *bytes_of(const char *format)
{
    return (const uint8_t *)format;
}

/* The pairs as they are lent, in memory of their own, so that a byte outside it is seen by the address sanitizer. */
static uint8_t *lent(Lengths lengths)
{
    uint8_t *pairs = malloc(2 * lengths.count);
    CHECK(pairs != NULL);
    for (size_t i = 0; i < lengths.count; i++) {
        pairs[2 * i] = (uint8_t)(lengths.start[i] / 256);
        pairs[2 * i + 1] = (uint8_t)(lengths.start[i] % 256);
    }
    return pairs;
}

/* The call gives both lengths, or the number and no change. */
static void answers(const char *format, Lengths lengths, uint64_t number, uint64_t least, uint64_t greatest)
{
    uint64_t answer[] = {MARK, MARK, MARK};
    uint8_t *pairs = lent(lengths);
    CHECK(digribbon_packsize_range(bytes_of(format), strlen(format), pairs, 2 * lengths.count, answer) == number);
    CHECK(answer[0] == (number == 0 ? least : MARK) && answer[1] == (number == 0 ? greatest : MARK));
    CHECK(answer[2] == MARK);
    free(pairs);
}

static void measures(const char *format, Lengths lengths, uint64_t least, uint64_t greatest)
{
    answers(format, lengths, 0, least, greatest);
}

static void refuses(const char *format, Lengths lengths, uint64_t number)
{
    answers(format, lengths, number, 0, 0);
}

/* ---- lengths */

static void test_texts(void)
{
    measures("z", LENGTHS(0, 0), 1, 1);
    measures("z", LENGTHS(0, 20), 1, 21);
    measures("z", LENGTHS(20, 20), 21, 21);
    measures("z", LENGTHS(1, 256), 2, 257); /* the lengths are big-endian */
    measures("z", LENGTHS(0, 65535), 1, 65536);
    measures("s1", LENGTHS(0, 255), 1, 256);
    measures("s", LENGTHS(0, 3), 8, 11);
    measures("s2", LENGTHS(256, 65535), 258, 65537);
    measures("s16", LENGTHS(0, 65535), 16, 65551);
    measures("c5 z b", LENGTHS(2, 3), 9, 10);
    measures("zs1", LENGTHS(1, 2, 10, 20), 13, 24);
    measures("s1z", LENGTHS(1, 2, 10, 20), 13, 24);
    measures("zs1", LENGTHS(0, 256, 0, 255), 2, 513);
}

/* The padding of a length, and of what stands behind a text, goes by the length so far. */
static void test_padding(void)
{
    measures("b s4", LENGTHS(0, 1), 5, 6);
    measures("<!4 b s4", LENGTHS(0, 1), 8, 9);
    measures("<!2 b s4", LENGTHS(0, 1), 6, 7);
    measures("<!4 b s1", LENGTHS(0, 1), 2, 3);
    measures("<! b s", LENGTHS(0, 0), 16, 16);
    measures("!2s3", LENGTHS(0, 1), 3, 4);
    measures("!2 s2 s2", LENGTHS(0, 1, 0, 1), 4, 7);
    measures("!4 z i", LENGTHS(0, 3), 8, 8);
    measures("!4 z i", LENGTHS(0, 4), 8, 12);
    measures("!4 z i", LENGTHS(3, 4), 8, 12);
    measures("!4 z i", LENGTHS(4, 7), 12, 12);
    measures("!8 z d z", LENGTHS(0, 7, 0, 0), 17, 17);
    measures("!8 z d z", LENGTHS(0, 8, 2, 3), 19, 28);
    measures(">!4 h z Xi", LENGTHS(0, 1), 4, 4);
    measures(">!4 h z Xi", LENGTHS(0, 2), 4, 8);
}

/* Without z and s both lengths are those of measuring, whatever pairs are left over. */
static void test_fixed_lengths(void)
{
    static const char *const formats[] = {"", " ", "<!8bn", "!4 b i x", "c9223372036854775807", ">h!2Xi4", "!16xi16"};
    static const uint64_t lengths[] = {0, 0, 16, 9, LARGEST, 2, 32};
    for (size_t i = 0; i < sizeof formats / sizeof formats[0]; i++) {
        uint64_t length;
        CHECK(digribbon_packsize(bytes_of(formats[i]), strlen(formats[i]), &length) == 0 && length == lengths[i]);
        measures(formats[i], none, length, length);
        measures(formats[i], LENGTHS(5, 1), length, length);
        measures(formats[i], LENGTHS(0, 7, 5, 1, 0, 65535), length, length);
    }
    measures("z", LENGTHS(0, 1, 1, 0), 1, 2);
}

static void test_largest_lengths(void)
{
    measures("c9223372036854775806z", LENGTHS(0, 0), LARGEST, LARGEST);
    refuses("c9223372036854775806z", LENGTHS(0, 1), 9);
    measures("c9223372036854710271z", LENGTHS(0, 65535), LARGEST - 65535, LARGEST);
    refuses("c9223372036854710272z", LENGTHS(0, 65535), 9);
    measures("!8c9223372036854775792s", LENGTHS(0, 7), LARGEST - 7, LARGEST);
    refuses("!8c9223372036854775792s", LENGTHS(0, 8), 9);
    refuses("!8c9223372036854775801s", LENGTHS(0, 0), 9); /* the padding alone is too long */
    refuses("zc9223372036854775807", LENGTHS(0, 0), 9);
    measures("zc9223372036854775806", LENGTHS(0, 0), LARGEST, LARGEST);
    refuses("c18446744073709551615z", LENGTHS(0, 0), 9);
}

/* ---- refusals */

/* A part of a pair is refused first of all, also where the format takes no pair, or is refused itself. */
static void test_parts_of_pairs(void)
{
    static const char *const formats[] = {"", "b", "q", "z", "zz", "!4s3", "c9223372036854775807b"};
    for (size_t i = 0; i < sizeof formats / sizeof formats[0]; i++)
        for (size_t length = 1; length < 12; length++) {
            uint64_t answer[] = {MARK, MARK, MARK};
            uint8_t *pairs = calloc(length, 1);
            uint64_t number =
                digribbon_packsize_range(bytes_of(formats[i]), strlen(formats[i]), pairs, length, answer);
            CHECK(pairs != NULL && (number == DIGRIBBON_MALFORMED) == (length % 4 != 0));
            CHECK(number == 0 || (answer[0] == MARK && answer[1] == MARK));
            CHECK(answer[2] == MARK);
            free(pairs);
        }
}

/* What the format alone is refused for, with pairs and without. */
static void test_refused_formats(void)
{
    static const struct {
        const char *format;
        uint64_t number;
    } refused[] = {{"q", 1}, {"bq", 1}, {"qz", 1}, {"\xE4", 1}, {"c18446744073709551616", 2},
                   {"s18446744073709551616", 2}, {"i17", 3}, {"s17", 3}, {"s0", 3}, {"!17", 4}, {"!3", 5},
                   {"!4i3", 6}, {"!4s3", 6}, {"!16 s12", 6}, {"X", 7}, {"Xz", 7}, {"Xs", 7}, {"c", 8},
                   {"c9223372036854775807b", 9}, {"c9223372036854775807bq", 9}};
    for (size_t i = 0; i < sizeof refused / sizeof refused[0]; i++) {
        refuses(refused[i].format, none, refused[i].number);
        refuses(refused[i].format, LENGTHS(0, 1), refused[i].number);
        refuses(refused[i].format, LENGTHS(3, 2), refused[i].number);
    }
}

/* At an item 11, 27, 15 and 9 come in this order, and every item is checked before the next. */
static void test_refused_pairs(void)
{
    refuses("z", none, DIGRIBBON_NO_VALUE_LEFT);
    refuses("s1", none, DIGRIBBON_NO_VALUE_LEFT);
    refuses("zz", LENGTHS(0, 1), DIGRIBBON_NO_VALUE_LEFT);
    refuses("zq", none, DIGRIBBON_NO_VALUE_LEFT);
    refuses("c9223372036854775807z", none, DIGRIBBON_NO_VALUE_LEFT);
    refuses("z", LENGTHS(3, 2), DIGRIBBON_LEAST_ABOVE_GREATEST);
    refuses("z", LENGTHS(256, 255), DIGRIBBON_LEAST_ABOVE_GREATEST);
    refuses("z", LENGTHS(65535, 0), DIGRIBBON_LEAST_ABOVE_GREATEST);
    refuses("zz", LENGTHS(1, 0), DIGRIBBON_LEAST_ABOVE_GREATEST);
    refuses("zz", LENGTHS(0, 1, 1, 0), DIGRIBBON_LEAST_ABOVE_GREATEST);
    refuses("s1", LENGTHS(257, 256), DIGRIBBON_LEAST_ABOVE_GREATEST);
    refuses("c9223372036854775807z", LENGTHS(1, 0), DIGRIBBON_LEAST_ABOVE_GREATEST);
    refuses("s1", LENGTHS(0, 256), DIGRIBBON_TEXT_DOES_NOT_FIT);
    refuses("s1", LENGTHS(256, 256), DIGRIBBON_TEXT_DOES_NOT_FIT);
    refuses("zs1", LENGTHS(0, 255, 0, 256), DIGRIBBON_TEXT_DOES_NOT_FIT);
    refuses("s1z", LENGTHS(0, 256, 1, 0), DIGRIBBON_TEXT_DOES_NOT_FIT);
    refuses("c9223372036854775807s1", LENGTHS(0, 256), DIGRIBBON_TEXT_DOES_NOT_FIT);
    refuses("c9223372036854775807s1", LENGTHS(0, 255), DIGRIBBON_LENGTH_TOO_LARGE);
    refuses("c9223372036854775807zq", LENGTHS(0, 0), DIGRIBBON_LENGTH_TOO_LARGE);
    refuses("c9223372036854775806zz", LENGTHS(0, 1, 1, 0), DIGRIBBON_LENGTH_TOO_LARGE);
    refuses("zq", LENGTHS(0, 0), DIGRIBBON_UNKNOWN_OPTION);
    refuses("z4", LENGTHS(0, 0), DIGRIBBON_UNKNOWN_OPTION);
}

/* ---- every record */

enum { LONGEST = 17, ROOM = 128 };

/* Puts a value: an integer for n, for t a text of so many letters. */
static size_t put_value(uint8_t *at, char kind, size_t letters)
{
    size_t length = kind == 't' ? letters : 8;
    memcpy(at, (uint8_t[]){kind == 't' ? 3 : 1, 0, (uint8_t)length}, 3);
    memset(at + 3, kind == 't' ? 'A' : 0, length);
    return 3 + length;
}

/* How long the record is whose two texts have so many letters. */
static uint64_t record_length(const char *format, const char *kinds, size_t first, size_t second)
{
    uint8_t list[ROOM], record[ROOM];
    size_t length = 0, texts = 0;
    uint64_t answer = 0;
    for (; *kinds != '\0'; kinds++) {
        length += put_value(list + length, *kinds, texts == 0 ? first : second);
        texts += *kinds == 't';
    }
    CHECK(texts == 2);
    CHECK(digribbon_pack(bytes_of(format), strlen(format), list, length, record, ROOM, &answer) == 0);
    return answer;
}

static uint64_t record_lengths[LONGEST + 1][LONGEST + 1]; /* by the letters of the first text and of the second */

typedef struct {
    uint16_t least, greatest;
} Pair;

/* The answer has the shortest and the longest of the records within two pairs. */
static void test_records_within(const char *format, Pair first, Pair second)
{
    uint64_t least = UINT64_MAX, greatest = 0;
    for (size_t i = first.least; i <= first.greatest; i++)
        for (size_t j = second.least; j <= second.greatest; j++) {
            uint64_t length = record_lengths[i][j];
            least = length < least ? length : least;
            greatest = length > greatest ? length : greatest;
        }
    measures(format, LENGTHS(first.least, first.greatest, second.least, second.greatest), least, greatest);
}

static void test_every_record_of(const char *format, const char *kinds)
{
    static Pair pairs[(LONGEST + 1) * (LONGEST + 2) / 2];
    size_t count = 0;
    for (uint16_t i = 0; i <= LONGEST; i++)
        for (uint16_t j = 0; j <= LONGEST; j++) {
            record_lengths[i][j] = record_length(format, kinds, i, j);
            if (i <= j)
                pairs[count++] = (Pair){i, j};
        }
    for (size_t i = 0; i < count; i++)
        for (size_t j = 0; j < count; j++)
            test_records_within(format, pairs[i], pairs[j]);
}

static void test_every_record(void)
{
    static const struct {
        const char *format, *kinds; /* of the values: n for a number, t for a text */
    } shapes[] = {{"zz", "tt"},
                  {"!2 s3 z", "tt"},
                  {"!4 z i s4", "tnt"},
                  {"!2 z h s16 x", "tnt"},
                  {">!8 z Xd b s8", "tnt"},
                  {"!16 z !2 s4 ! n", "ttn"},
                  {"!8 b s s2 j", "nttn"},
                  {"!16 s1 i16 z d", "tntn"}};
    for (size_t i = 0; i < sizeof shapes / sizeof shapes[0]; i++)
        test_every_record_of(shapes[i].format, shapes[i].kinds);
}

int main(void)
{
    test_texts();
    test_padding();
    test_fixed_lengths();
    test_largest_lengths();
    test_parts_of_pairs();
    test_refused_formats();
    test_refused_pairs();
    test_every_record();
    printf("%u checks passed in C, of record lengths\n", passed);
    return 0;
}
