/*
 * Digribbon: Lua's string.packsize, string.pack and string.unpack over lent memory, with continued writing, trays of
 * records and record lengths before the texts are known; and validity dates as day numbers.
 *
 * The archive is for x86-64 Linux, and needs nothing but the C library:
 *
 *     cc -I hosts/include host.c target/staticlib/libdigribbon.a
 *
 * Every call
 *   - returns 0 and fills its answer, or returns a refusal's number (DIGRIBBON_REFUSALS below). A refusal changes no
 *     lent byte, those of the answer included. An accepted call changes its answer and the first bytes of its result
 *     buffer, as many as the answer says, and no others. There is one exception: digribbon_pack_tray sets its place[0]
 *     in every case, accepted or refused. What a result buffer, an answer or a place held before has no influence.
 *   - allocates nothing and keeps nothing. All memory belongs to the caller and is lent until the call returns.
 *   - may run while others run in other threads, each with result buffers, an answer and a place of its own. There is
 *     no state between calls.
 *
 * The caller sees to it that
 *   - a slice is a pointer and a length in bytes, and the pointer is not NULL, also where the length is 0;
 *   - no slice's length is above 2^63-1;
 *   - an answer or a place is aligned as a uint64_t is, and has as many of them as its call's declaration says;
 *   - the buffers of one call, its answer and its place among them, do not overlap (those that are only read may);
 *   - nobody changes a lent byte during the call. A call first checks its input and then puts the result, trusting
 *     what it has checked. Where a byte changes in between nothing is promised, not even that the call reads and
 *     writes inside what it was lent. So bytes that others can change, as in memory that is shared, are copied first;
 *   - the float environment is C's default: rounding to nearest, no traps, no subnormal number taken for a zero. Only T
 *     of a float that equals no integer depends on it. With another rounding, or where subnormal numbers are taken for
 *     zeros (as in a program linked with gcc's -ffast-math), it can write other bytes; with traps on, it can end the
 *     process. All else is the same in every environment.
 *
 * A value list is fields, one after the other: a tag (1 byte), the content's length (2 bytes, big-endian), the content.
 *
 *     tag  content
 *     0    nothing: a value that is no number and no text
 *     1    8 bytes: an integer, two's complement, big-endian
 *     2    8 bytes: the bits of a float, big-endian
 *     3    0 to 65,535 bytes: a text
 *
 * Calls are added under new names, and new refusals take new numbers. Those here keep their names, arguments and numbers;
 * where what a call answers changes, the middle number of the version rises, and CHANGELOG.md says how.
 */
#ifndef DIGRIBBON_H
#define DIGRIBBON_H

#include <stddef.h>
#include <stdint.h>

/*
 * The version of header and archive, as text and as a number for #if: 10,000, 100 and 1 times its three numbers. The
 * last of these rises where something is added, the middle one where an answer changes.
 */
#define DIGRIBBON_VERSION "0.2.1"
#define DIGRIBBON_VERSION_NUMBER 201

#if SIZE_MAX < UINT64_MAX
#error "Digribbon is for hosts with a size_t of 8 bytes."
#endif

/*
 * Every refusal: its number, its name, who causes it, what it says. The first failing check decides; 21 comes first of
 * all and 22 last of all; in a tray 23 comes first, and 21 in its record's turn; of pairs of text lengths the order is
 * 11, 27, 15, 9, and of days and dates 26, 24, 25. For code about each of them, give a macro of four arguments:
 *
 *     #define SENTENCE(number, name, cause, sentence) case name: return sentence;
 *
 *     const char *sentence_of(uint64_t number)
 *     {
 *         switch (number) { DIGRIBBON_REFUSALS(SENTENCE) }
 *         return "accepted";
 *     }
 */
#define DIGRIBBON_REFUSALS(refusal) \
    refusal(1, DIGRIBBON_UNKNOWN_OPTION, "profile author", "The format has a byte that is no option, or a byte above 127.") \
    refusal(2, DIGRIBBON_NUMERAL_TOO_LARGE, "profile author", "A numeral is 2^64 or more.") \
    refusal(3, DIGRIBBON_SIZE_OUTSIDE, "profile author", "The size of i, I, l, L or s is outside 1 to 16.") \
    refusal(4, DIGRIBBON_LIMIT_OUTSIDE, "profile author", "The limit of ! is outside 1 to 16.") \
    refusal(5, DIGRIBBON_LIMIT_NO_POWER, "profile author", "The limit of ! is no power of two.") \
    refusal(6, DIGRIBBON_ALIGNMENT_NO_POWER, "profile author", "An alignment is above 1 and no power of two.") \
    refusal(7, DIGRIBBON_MISPLACED_X, "profile author", "X stands at the end, or before a blank, X, <, >, =, !, c, s, z or x.") \
    refusal(8, DIGRIBBON_MISSING_NUMERAL, "profile author", "c has no numeral.") \
    refusal(9, DIGRIBBON_LENGTH_TOO_LARGE, "profile author", "The length, or the list bound's sum, is above 2^63-1.") \
    refusal(10, DIGRIBBON_NO_FIXED_SIZE, "profile author", "z or s has no fixed size, so the format cannot be measured.") \
    refusal(11, DIGRIBBON_NO_VALUE_LEFT, "supplier of values", "No value is left, or no pair of text lengths.") \
    refusal(12, DIGRIBBON_WRONG_KIND, "supplier of values", "A value has the wrong kind.") \
    refusal(13, DIGRIBBON_OUT_OF_RANGE, "supplier of values", "An integer is out of its option's range.") \
    refusal(14, DIGRIBBON_ZERO_IN_TEXT, "supplier of values", "A text for z contains a zero.") \
    refusal(15, DIGRIBBON_TEXT_DOES_NOT_FIT, "supplier of values", "A text is longer than c's size, or than s's length can say.") \
    refusal(16, DIGRIBBON_START_OUTSIDE, "card data", "The start position lies outside the data.") \
    refusal(17, DIGRIBBON_DATA_END, "card data", "The data end too early.") \
    refusal(18, DIGRIBBON_INTEGER_TOO_WIDE, "card data", "An integer does not fit 64 bits.") \
    refusal(19, DIGRIBBON_MISSING_ZERO, "card data", "A text of z has no zero at its end.") \
    refusal(20, DIGRIBBON_TEXT_ABOVE_65535, "card data", "A text is longer than 65,535 bytes.") \
    refusal(21, DIGRIBBON_MALFORMED, "host program", "The value list is malformed, a pair of text lengths is not whole, the data or the state's length is above 2^63-1, or the state's limit is no power of two of 1 to 16.") \
    refusal(22, DIGRIBBON_RESULT_TOO_LONG, "host program", "The result is longer than the lent buffer.") \
    refusal(23, DIGRIBBON_DAMAGED_RUN, "host program", "The lengths of a run's lists don't end at its last byte.") \
    refusal(24, DIGRIBBON_NO_SUCH_DATE, "supplier of values", "There is no such date, or its year is before 2000.") \
    refusal(25, DIGRIBBON_DAY_TOO_LARGE, "supplier of values", "A day number is above 65,535.") \
    refusal(26, DIGRIBBON_MONTHS_OUTSIDE, "supplier of values", "The months are outside 1 to 12.") \
    refusal(27, DIGRIBBON_LEAST_ABOVE_GREATEST, "supplier of values", "A least text length is above its greatest.")

/* The numbers by name: DIGRIBBON_UNKNOWN_OPTION is 1, and so on. */
#define DIGRIBBON_NUMBER(number, name, cause, sentence) name = number,
enum { DIGRIBBON_REFUSALS(DIGRIBBON_NUMBER) };
#undef DIGRIBBON_NUMBER

#ifdef __cplusplus
extern "C" {
#endif

/*
 * Measuring: how long a record of the format is.
 *
 *     format     the options, in ASCII
 *     answer[0]  the record's length
 *
 * Refusals: 1 to 10.
 */
uint64_t digribbon_packsize(const uint8_t *format, size_t format_len, uint64_t answer[1]);

/*
 * Measuring before the texts are known: how long a record of the format is at least and at most, from the least and the
 * greatest length of each text under z or s.
 *
 *     format     the options
 *     pairs      for each z and s of the format, in order, the least and the greatest length of its text (2 bytes each,
 *                big-endian); pairs that the format does not take are ignored, whatever they hold
 *     answer[0]  the least length of a record
 *     answer[1]  the greatest length of a record
 *
 * Every record whose texts have lengths within their pairs is as long as answer[0] says, as answer[1] says, or between;
 * both are the length of such a record. So a buffer of answer[1] bytes suffices for each of them. Where the format has
 * no z or s, both are the length that digribbon_packsize gives.
 *
 * A part of a pair, which is a pairs_len that is no multiple of 4, is refused first of all (21), also where the format
 * takes no pair. Then each item in turn meets the checks of digribbon_packsize but for 10. At a z or s there are four
 * checks behind those for 1 to 8, in this order: 11 where no pair is left; 27 where the least length is above the
 * greatest; 15 where the greatest is more than the length in front of s can say, which happens with s1 from 256 on; and
 * 9, which at every item is about the greatest length of the record so far.
 *
 * Refusals: 1 to 9, 11, 15, 21, 27.
 */
uint64_t digribbon_packsize_range(const uint8_t *format, size_t format_len,
                                  const uint8_t *pairs, size_t pairs_len,
                                  uint64_t answer[2]);

/*
 * The list bound: a length that suffices for the list of any accepted reading by the format.
 *
 *     format       the options
 *     data_length  the length of the data to be read
 *     answer[0]    the bound
 *
 * For each z and s it counts the data's whole length, or 65,535 where that is less, so it can be far more than a list
 * needs. This sum suffices too: 11 for each byte of the format, and the data's length. An option is at least a byte, a
 * number takes 11 bytes, a text 3 and its own, and the texts lie apart in the data. (The bound is proved, the sum is
 * not.)
 *
 * Refusals: 1 to 9 (9 for the bound itself), and 21 for a data_length above 2^63-1.
 */
uint64_t digribbon_list_bound(const uint8_t *format, size_t format_len, uint64_t data_length, uint64_t answer[1]);

/*
 * Writing: lays values out as a record, from the start state (little, limit 1, length 0).
 *
 *     format     the options
 *     list       the values, a value list; those that the format does not take are ignored
 *     record     the result buffer
 *     answer[0]  the record's length
 *
 * digribbon_packsize says how long the buffer must be, but not for a format with z or s; digribbon_packsize_range also
 * says it for those, from the greatest lengths of their texts. This sum suffices for every format: the list's length,
 * 16 for each byte of the format, and the numerals behind its c. (A rule of thumb: it follows item by item from what
 * the options write, and held in every run, but it is not proved.) A buffer that is too short gives 22 and nothing is
 * changed, so a host may also begin with a shorter one.
 *
 * Refusals: 1 to 9, 11 to 15, 21, 22.
 */
uint64_t digribbon_pack(const uint8_t *format, size_t format_len,
                        const uint8_t *list, size_t list_len,
                        uint8_t *record, size_t record_len,
                        uint64_t answer[1]);

/*
 * Continued writing: writes a part of a record, from a state.
 *
 *     order      0: little-endian; any other number: big-endian
 *     limit      the alignment limit, a power of two of 1 to 16
 *     length     how long the record is so far, at most 2^63-1; alignment counts from it
 *     format     the part's options
 *     list       the values that are left; digribbon_list_after gives them
 *     record     the result buffer, for this part's bytes alone
 *     answer[0]  the next state's order, 0 or 1
 *     answer[1]  the next state's limit
 *     answer[2]  the next state's length
 *     answer[3]  how many bytes were written
 *     answer[4]  how many values were used
 *     answer[5]  how many items were run, blanks not counted
 *
 * The first part has order 0, limit 1, length 0. A format that is cut between items and written part by part gives the
 * bytes that digribbon_pack gives for the whole.
 *
 * A call walks over the whole list that it is lent. Where each of many parts is lent all values that are left, the
 * record takes quadratic time. An item has at least a byte and takes at most one value, so lend a part no more fields
 * than its format has bytes, and the record takes linear time:
 *
 *     digribbon_list_after(rest, rest_len, format_len, &lent);
 *     number = digribbon_pack_continued(order, limit, length, format, format_len, rest, lent,
 *                                       record, record_len, answer);
 *     digribbon_list_after(rest, lent, answer[4], &used);
 *     rest += used;
 *     rest_len -= used;
 *
 * Refusals: 1 to 9, 11 to 15, 21, 22.
 */
uint64_t digribbon_pack_continued(uint64_t order, uint64_t limit, uint64_t length,
                                  const uint8_t *format, size_t format_len,
                                  const uint8_t *list, size_t list_len,
                                  uint8_t *record, size_t record_len,
                                  uint64_t answer[6]);

/*
 * A tray: the records of many value lists by one format, back to back in one buffer. Each is laid out from the start
 * state, as digribbon_pack lays it out alone: neither byte order, limit nor length goes on from one to the next.
 *
 *     format     the options
 *     run        the value lists, one after the other, each behind its length (2 bytes, big-endian): a list has at most
 *                65,535 bytes, and an empty one is a list too
 *     tray       the result buffer
 *     place[0]   which record was refused, from 1; 0 for 22 and 23, which are about the whole tray, and 0 where the
 *                tray was accepted. Every call sets it
 *     answer[0]  the tray's length
 *
 * A run of no bytes is accepted for every format, and gives a tray of no bytes. Otherwise the run's lengths are checked
 * first (23). Then each record in turn meets the checks of digribbon_pack but for 22, and the first that is refused
 * decides, whatever the buffer's length. 21 is about the record's own list, 9 about its own length. After all records
 * the buffer's length is checked (22), for the whole tray.
 *
 * A buffer suffices that is as long as those together which digribbon_pack would be lent for each list alone: for each
 * list what digribbon_packsize says or, for every format, the list's length, 16 for each byte of the format, and the
 * numerals behind its c (by the same rule of thumb).
 *
 * Refusals: 1 to 9, 11 to 15, 21, 22, 23. They leave answer[0] and every byte of the tray's buffer as they were.
 */
uint64_t digribbon_pack_tray(const uint8_t *format, size_t format_len,
                             const uint8_t *run, size_t run_len,
                             uint8_t *tray, size_t tray_len,
                             uint64_t place[1],
                             uint64_t answer[1]);

/*
 * Reading: takes the values out of data.
 *
 *     format     the options
 *     data       the bytes to read from; alignment counts from the first of them
 *     start      the position to start at, from 1 to data_len + 1, or from -data_len to -1 counted from the end
 *     list       the result buffer, which becomes a value list; digribbon_list_bound says how long it need be at most
 *     answer[0]  the value list's length
 *     answer[1]  the position after the last byte read, from 1
 *
 * Refusals: 1 to 8, 16 to 20, 22. (21, for data above 2^63-1 bytes, cannot come: no slice is that long.)
 */
uint64_t digribbon_unpack(const uint8_t *format, size_t format_len,
                          const uint8_t *data, size_t data_len,
                          int64_t start,
                          uint8_t *list, size_t list_len,
                          uint64_t answer[2]);

/*
 * The list after some fields, for continued writing.
 *
 *     list       a value list
 *     fields     how many fields to pass
 *     answer[0]  the offset, from 0, of the list after them; list_len where the list has fewer
 *
 * Passes a field by its length bytes, whatever its tag. Always returns 0.
 */
uint64_t digribbon_list_after(const uint8_t *list, size_t list_len, uint64_t fields, uint64_t answer[1]);

/*
 * A day's number: how many days a date lies after 1 January 2000, in the Gregorian calendar. A number is at most
 * 65,535, which is 6 June 2179, and so fits the two bytes of an I2 or H.
 *
 *     year       the year, from 2000 on
 *     month      the month, 1 to 12
 *     day        the day of the month, from 1 on
 *     answer[0]  the day's number
 *
 * Refusals: 24 where there is no such date, or the year is before 2000, whatever the other numbers are; 25 for a date
 * after 6 June 2179.
 */
uint64_t digribbon_day_number(int64_t year, int64_t month, int64_t day, uint64_t answer[1]);

/*
 * The date of a day's number. It is the one whose number this is: digribbon_day_number leads back, for each of the
 * 65,536 days.
 *
 *     day        the day's number
 *     answer[0]  the year
 *     answer[1]  the month
 *     answer[2]  the day of the month
 *
 * Refusals: 24 for a number below 0, whose day lies before 2000; 25 for one above 65,535.
 */
uint64_t digribbon_date(int64_t day, uint64_t answer[3]);

/*
 * The last valid day of a pass: the day before the same day of the month that many months on. If that month has no such
 * day, its last day.
 *
 *     first      the number of the pass's first day
 *     months     for how many months it is valid, 1 to 12
 *     answer[0]  the number of its last day
 *
 * A pass of 1 month from 31 January 2024 (8796) ends on 29 February 2024 (8825), one from 29 January on 28 February.
 *
 * Refusals, in this order: 26 for months outside 1 to 12; 24 for a first day below 0; 25 for a first day above 65,535,
 * or where the last day is above it.
 */
uint64_t digribbon_last_day(int64_t first, int64_t months, uint64_t answer[1]);

#ifdef __cplusplus
}
#endif

#endif
