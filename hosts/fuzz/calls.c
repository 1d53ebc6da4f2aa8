/*
 * A fuzz target over the calls of the header, for libFuzzer. An input is
 *   - a byte each: flags; the state; where the format is cut; the start; the format's length;
 *   - the format;
 *   - the bytes of which values, data, text lengths, days and dates are made.
 *
 * Slices lie at pages that can't be touched, or the result right behind the values or the data. After each call every
 * lent byte is looked at. Then what the calls promise together: sizes, counts, 21 first and 22 last, parts, reading
 * back with other bytes as padding, writing again, bounds, trays of single records, record lengths before the texts are
 * known, days and dates there and back.
 */
#include "../include/digribbon.h"
#include "coverage.h"
#include "numbers.h"
#include <stdbool.h>
#include <stdio.h>
#include <stdlib.h>
#include <string.h>
#include <sys/mman.h>

#define MARK UINT64_C(0xA5C396E15A3C691E) /* what an answer holds before a call */
#define LARGEST (UINT64_MAX / 2)

enum { PAGE = 4096, REGION = 1 << 17, KEPT = 512, NUMBERS = 32, RECORDS = 16 };

#define HOLD(promise) \
    do { \
        if (!(promise)) { \
            fprintf(stderr, "calls.c:%d: broken: %s\n", __LINE__, #promise); \
            abort(); \
        } \
    } while (0)

typedef struct {
    const uint8_t *start;
    size_t length;
} Slice;

typedef struct {
    uint64_t order, limit, length;
} State;

static const State START = {0, 1, 0};

/* What a call answers: a refusal's number, or 0, the answer's words, what it put into the result buffer, the place. */
typedef struct {
    uint64_t number, words[6];
    Slice result;
    uint64_t place;
} Outcome;

static bool same(Slice a, Slice b)
{
    return a.length == b.length && memcmp(a.start, b.start, a.length) == 0;
}

static size_t lesser(size_t a, size_t b)
{
    return a < b ? a : b;
}

/* ---- memory */

enum { FORMAT, SOURCE, RESULT, REGIONS };

static uint8_t *regions[REGIONS], kept[KEPT][REGION], untouched[REGION];
static unsigned next_kept;
static bool at_front, is_behind;
static size_t room_lent;

static void map_regions(void)
{
    for (int i = 0; i < REGIONS; i++) {
        uint8_t *pages = mmap(NULL, REGION + 2 * PAGE, PROT_NONE, MAP_PRIVATE | MAP_ANONYMOUS, -1, 0);
        HOLD(pages != MAP_FAILED && mprotect(pages + PAGE, REGION, PROT_READ | PROT_WRITE) == 0);
        regions[i] = pages + PAGE;
    }
    memset(untouched, 0xEE, REGION);
}

/* So many bytes of a region, at its end or at its front; of the source, where it is wanted, right before the result. */
static uint8_t *place(int region, size_t length)
{
    HOLD(length <= REGION);
    if (region == SOURCE && is_behind && length <= REGION - room_lent)
        return regions[RESULT] + REGION - room_lent - length;
    return regions[region] + (at_front && !is_behind ? 0 : REGION - length);
}

static const uint8_t *lend(int region, Slice bytes)
{
    return memcpy(place(region, bytes.length), bytes.start, bytes.length);
}

static uint8_t *lend_room(size_t length)
{
    room_lent = length;
    return memcpy(place(RESULT, length), untouched, length);
}

/* A copy that lasts until the next input. */
static Slice keep(Slice bytes)
{
    uint8_t *copy = kept[next_kept++];
    HOLD(bytes.length <= REGION && next_kept <= KEPT);
    return (Slice){memcpy(copy, bytes.start, bytes.length), bytes.length};
}

static uint8_t *kept_start(Slice bytes)
{
    return (uint8_t *)(uintptr_t)bytes.start;
}

/* ---- the calls, and every lent byte after them */

__attribute__((section("__libfuzzer_extra_counters"))) static uint8_t seen[10][NUMBERS];

enum { MEASURING, BOUND, PLAIN, CONTINUED, READING, TRAY, RANGE, DAY_NUMBER, DATE, LAST_DAY };

static Outcome nothing_yet(void)
{
    return (Outcome){0, {MARK, MARK, MARK, MARK, MARK, MARK}, {(const uint8_t *)"", 0}, 0};
}

/* Whether a call may give such a number. */
static bool is_known(int call, uint64_t number)
{
    if (call == RANGE)
        return number <= 9 || number == 11 || number == 15 || number == 21 || number == 27;
    if (call < DAY_NUMBER)
        return number <= (call == TRAY ? 23 : 22);
    return number == 0 || (number >= 24 && number <= (call == LAST_DAY ? 26 : 25));
}

/* The answer has so many words; a refusal changes none, and nobody those behind them. */
static void check_words(const Outcome *outcome, int call, int words)
{
    HOLD(is_known(call, outcome->number));
    seen[call][outcome->number] = 1;
    for (int i = outcome->number == 0 ? words : 0; i < 6; i++)
        HOLD(outcome->words[i] == MARK);
}

/* What was lent for reading is as before; the result buffer has changed at its front only, and not by a refusal. */
static void check_bytes(Outcome *outcome, Slice format, Slice source, size_t room, uint64_t length)
{
    const uint8_t *result = place(RESULT, room);
    HOLD(same((Slice){place(FORMAT, format.length), format.length}, format));
    HOLD(same((Slice){place(SOURCE, source.length), source.length}, source));
    if (outcome->number != 0)
        length = 0;
    HOLD(length <= room);
    HOLD(memcmp(result + length, untouched, room - length) == 0);
    outcome->result = keep((Slice){result, length});
}

static Outcome measure(Slice format)
{
    Outcome outcome = nothing_yet();
    outcome.number = digribbon_packsize(lend(FORMAT, format), format.length, outcome.words);
    check_words(&outcome, MEASURING, 1);
    return outcome;
}

static Outcome list_bound(Slice format, uint64_t data_length)
{
    Outcome outcome = nothing_yet();
    outcome.number = digribbon_list_bound(lend(FORMAT, format), format.length, data_length, outcome.words);
    check_words(&outcome, BOUND, 1);
    return outcome;
}

static Outcome pack_plainly(Slice format, Slice list, size_t room)
{
    Outcome outcome = nothing_yet();
    uint8_t *record = lend_room(room);
    outcome.number = digribbon_pack(lend(FORMAT, format), format.length, lend(SOURCE, list), list.length, record, room,
                                    outcome.words);
    check_words(&outcome, PLAIN, 1);
    check_bytes(&outcome, format, list, room, outcome.words[0]);
    return outcome;
}

static Outcome pack(State from, Slice format, Slice list, size_t room)
{
    Outcome outcome = nothing_yet();
    uint8_t *record = lend_room(room);
    outcome.number =
        digribbon_pack_continued(from.order, from.limit, from.length, lend(FORMAT, format), format.length,
                                 lend(SOURCE, list), list.length, record, room, outcome.words);
    check_words(&outcome, CONTINUED, 6);
    check_bytes(&outcome, format, list, room, outcome.words[3]);
    return outcome;
}

static Outcome unpack(Slice format, Slice data, int64_t start, size_t room)
{
    Outcome outcome = nothing_yet();
    uint8_t *list = lend_room(room);
    outcome.number = digribbon_unpack(lend(FORMAT, format), format.length, lend(SOURCE, data), data.length, start, list,
                                      room, outcome.words);
    check_words(&outcome, READING, 2);
    check_bytes(&outcome, format, data, room, outcome.words[0]);
    return outcome;
}

static Outcome pack_tray(Slice format, Slice run, size_t room)
{
    Outcome outcome = nothing_yet();
    uint64_t place[2] = {MARK, MARK};
    uint8_t *tray = lend_room(room);
    outcome.number = digribbon_pack_tray(lend(FORMAT, format), format.length, lend(SOURCE, run), run.length, tray, room,
                                         place, outcome.words);
    HOLD(place[1] == MARK);
    outcome.place = place[0];
    check_words(&outcome, TRAY, 1);
    check_bytes(&outcome, format, run, room, outcome.words[0]);
    return outcome;
}

static Outcome packsize_range(Slice format, Slice pairs)
{
    Outcome outcome = nothing_yet();
    lend_room(0);
    outcome.number = digribbon_packsize_range(lend(FORMAT, format), format.length, lend(SOURCE, pairs), pairs.length,
                                              outcome.words);
    check_words(&outcome, RANGE, 2);
    check_bytes(&outcome, format, pairs, 0, 0);
    return outcome;
}

static Outcome day_number(int64_t year, int64_t month, int64_t day)
{
    Outcome outcome = nothing_yet();
    outcome.number = digribbon_day_number(year, month, day, outcome.words);
    check_words(&outcome, DAY_NUMBER, 1);
    return outcome;
}

static Outcome date(int64_t day)
{
    Outcome outcome = nothing_yet();
    outcome.number = digribbon_date(day, outcome.words);
    check_words(&outcome, DATE, 3);
    return outcome;
}

static Outcome last_day(int64_t first, int64_t months)
{
    Outcome outcome = nothing_yet();
    outcome.number = digribbon_last_day(first, months, outcome.words);
    check_words(&outcome, LAST_DAY, 1);
    return outcome;
}

static Slice list_after(Slice list, uint64_t fields)
{
    uint64_t answer[2] = {MARK, MARK};
    HOLD(digribbon_list_after(lend(SOURCE, list), list.length, fields, answer) == 0);
    HOLD(answer[0] <= list.length && answer[1] == MARK);
    return (Slice){list.start + answer[0], list.length - answer[0]};
}

/* ---- value lists */

enum { OTHER, INTEGER, FLOAT, TEXT };

static size_t content_length(const uint8_t *field)
{
    return (size_t)field[1] * 256 + field[2];
}

static bool is_list(Slice list)
{
    size_t at = 0;
    while (list.length - at >= 3) {
        size_t length = content_length(list.start + at);
        uint8_t tag = list.start[at];
        bool fits = tag == OTHER ? length == 0 : tag == TEXT || (tag <= FLOAT && length == 8);
        if (!fits || length > list.length - at - 3)
            return false;
        at += 3 + length;
    }
    return at == list.length;
}

/* How long a text is, of a byte: up to 255, or some bytes below 65,536. */
static size_t text_length(uint8_t byte)
{
    return byte < 252 ? byte : byte < 254 ? byte + 4 : 65280 + byte;
}

/* Values of bytes: a tag, then a number's eight bytes or a text, filled with zeros where the bytes end. */
static Slice list_of(Slice bytes)
{
    uint8_t *list = kept_start(keep((Slice){(const uint8_t *)"", 0}));
    size_t length = 0;
    for (size_t at = 0; at < bytes.length;) {
        uint8_t tag = bytes.start[at++] % 4;
        size_t wanted = tag == OTHER ? 0 : tag == TEXT ? text_length(at < bytes.length ? bytes.start[at++] : 0) : 8;
        size_t there = lesser(wanted, bytes.length - at);
        if (length + 3 + wanted > REGION / 4 * 3)
            break;
        memcpy(list + length, (uint8_t[]){tag, (uint8_t)(wanted / 256), (uint8_t)wanted}, 3);
        memset(list + length + 3, 0, wanted);
        memcpy(list + length + 3, bytes.start + at, there);
        length += 3 + wanted;
        at += there;
    }
    return (Slice){list, length};
}

/* ---- the items of a format */

typedef struct {
    uint8_t option;
    bool has_numeral;
    uint64_t numeral; /* up to LARGEST */
    size_t end;
} Item;

static bool is_one_of(uint8_t byte, const char *bytes)
{
    return byte != 0 && strchr(bytes, byte) != NULL;
}

static Item item_at(Slice format, size_t at)
{
    Item item = {format.start[at], false, 0, at + 1};
    bool takes_digits = is_one_of(item.option, "iIlLcs!");
    if (item.option == 'X' && item.end < format.length)
        takes_digits = is_one_of(format.start[item.end++], "iIlLf");
    for (; takes_digits && item.end < format.length && is_one_of(format.start[item.end], "0123456789"); item.end++) {
        uint64_t digit = format.start[item.end] - '0';
        item.has_numeral = true;
        item.numeral = item.numeral > (LARGEST - digit) / 10 ? LARGEST : item.numeral * 10 + digit;
    }
    return item;
}

static bool takes_value(Item item)
{
    return is_one_of(item.option, "bBhHiIlLjJTfdnczs");
}

/* How many bytes of an accepted item are no padding, where its value's content has so many. */
static size_t own_bytes(Item item, size_t content)
{
    if (is_one_of(item.option, "iIlL"))
        return item.has_numeral ? item.numeral : 4;
    if (item.option == 's')
        return (item.has_numeral ? item.numeral : 8) + content;
    if (item.option == 'c')
        return item.numeral;
    if (item.option == 'z')
        return content + 1;
    return is_one_of(item.option, "bB") ? 1 : is_one_of(item.option, "hH") ? 2 : item.option == 'f' ? 4 : 8;
}

/* The header's sum for a record's buffer, or all that there is. */
static size_t record_room(Slice format, Slice list)
{
    uint64_t sum = list.length + 16 * format.length;
    for (size_t at = 0; at < format.length && sum < REGION;) {
        Item item = item_at(format, at);
        if (item.option == 'c')
            sum += item.numeral;
        at = item.end;
    }
    return lesser(sum, REGION);
}

/* ---- writing */

/* The sum suffices. With a byte less than it needs a record is refused; another refusal doesn't look at the room. */
static Outcome check_writing(State from, Slice format, Slice list)
{
    size_t room = record_room(format, list);
    Outcome whole = pack(from, format, list, room), other;
    if (whole.number == 0) {
        other = pack(from, format, list, whole.result.length);
        HOLD(other.number == 0 && same(other.result, whole.result));
        if (whole.result.length > 0)
            HOLD(pack(from, format, list, whole.result.length - 1).number == 22);
        HOLD(whole.words[2] == from.length + whole.words[3]);
    } else {
        HOLD(whole.number != 22 || room == REGION);
        HOLD(pack(from, format, list, 0).number == whole.number);
        HOLD(whole.number != 10 && (whole.number < 16 || whole.number > 20));
    }
    HOLD((whole.number == 21) == (!is_list(list) || from.length > LARGEST || from.limit == 0 || from.limit > 16 ||
                                  (from.limit & (from.limit - 1)) != 0));
    return whole;
}

/* Plain writing is continued writing from the start; a record is as long as its format measures; counts are right. */
static void check_plain(Slice format, Slice list, const Outcome *whole)
{
    Outcome plain = pack_plainly(format, list, record_room(format, list)), size = measure(format);
    uint64_t items = 0, used = 0;
    bool has_size = true;
    HOLD(plain.number == whole->number && same(plain.result, whole->result));
    if (whole->number != 0)
        return;
    for (size_t at = 0; at < format.length;) {
        Item item = item_at(format, at);
        items += !is_one_of(item.option, " \t\n\r");
        used += takes_value(item);
        has_size = has_size && !is_one_of(item.option, "sz");
        at = item.end;
    }
    HOLD(whole->words[4] == used && whole->words[5] == items);
    HOLD(has_size ? size.number == 0 && size.words[0] == whole->result.length : size.number == 10);
}

/* The end of the item that a cut comes to. */
static size_t cut_of(Slice format, uint8_t cut)
{
    size_t at = 0;
    for (size_t wanted = cut % (format.length + 1); at < wanted;)
        at = item_at(format, at).end;
    return at;
}

/* Two parts give what the whole gives, or its refusal. */
static void check_cut(State from, Slice format, Slice list, const Outcome *whole, uint8_t cut)
{
    size_t at = cut_of(format, cut), room = record_room(format, list);
    Slice front = {format.start, at}, back = {format.start + at, format.length - at};
    Outcome first = pack(from, front, list, room), second;
    State next = {first.words[0], first.words[1], first.words[2]};
    if (first.number == 22 || whole->number == 22)
        return;
    if (first.number != 0) {
        HOLD(first.number == whole->number);
        return;
    }
    second = pack(next, back, list_after(list, first.words[4]), room);
    if (second.number == 22 && whole->number != 0)
        return;
    HOLD(second.number == whole->number);
    if (second.number != 0)
        return;
    HOLD(first.result.length + second.result.length == whole->result.length);
    HOLD(memcmp(first.result.start, whole->result.start, first.result.length) == 0);
    HOLD(memcmp(second.result.start, whole->result.start + first.result.length, second.result.length) == 0);
    HOLD(memcmp(second.words, whole->words, 3 * sizeof second.words[0]) == 0);
    for (int i = 3; i < 6; i++)
        HOLD(first.words[i] + second.words[i] == whole->words[i]);
}

/* ---- reading back */

/*
 * Data with 16 bytes, a record with other bytes as its padding, and a byte more. Nothing where there is no room for
 * them, or reading back is not promised: a c above 65,535, or a J that took no integer.
 */
static Slice with_other_padding(Slice format, Slice list, Slice record)
{
    Slice data = keep((Slice){(const uint8_t *)"sixteen bytes...", 16});
    State state = START;
    if (record.length > REGION - 17)
        return (Slice){NULL, 0};
    for (size_t at = 0; at < format.length;) {
        Item item = item_at(format, at);
        bool takes = takes_value(item);
        Outcome one = pack(state, (Slice){format.start + at, item.end - at}, list, record.length);
        size_t own = takes ? own_bytes(item, content_length(list.start)) : 0;
        if ((item.option == 'c' && item.numeral > 65535) || (item.option == 'J' && list.start[0] != INTEGER))
            return (Slice){NULL, 0};
        HOLD(one.number == 0 && one.words[4] == takes && own <= one.result.length);
        memcpy(kept_start(data) + data.length, one.result.start, one.result.length);
        memset(kept_start(data) + data.length, 0x5A, one.result.length - own);
        data.length += one.result.length;
        state = (State){one.words[0], one.words[1], one.words[2]};
        list = list_after(list, one.words[4]);
        at = item.end;
    }
    kept_start(data)[data.length++] = '.';
    return data;
}

/* A record is read back from both, and what was read is written again as the record. */
static void check_back(Slice format, Slice list, const Outcome *whole)
{
    Slice data = with_other_padding(format, list, whole->result);
    size_t room = lesser(11 * format.length + data.length, REGION);
    Outcome alone, behind, again;
    if (data.start == NULL)
        return;
    HOLD(data.length == whole->result.length + 17);
    alone = unpack(format, whole->result, 1, room);
    behind = unpack(format, data, 17, room);
    HOLD(alone.number == 0 && alone.words[1] == whole->result.length + 1);
    HOLD(behind.number == 0 && behind.words[1] == whole->result.length + 17);
    HOLD(same(alone.result, behind.result));
    again = pack(START, format, alone.result, whole->result.length);
    HOLD(again.number == 0 && same(again.result, whole->result));
}

/* ---- reading */

/* A reading is within both bounds, the same from the other end, and refused with a byte less than its list. */
static void check_reading(Slice format, Slice data, int64_t start)
{
    size_t room = lesser(11 * format.length + data.length, REGION);
    Outcome bound = list_bound(format, data.length), read = unpack(format, data, start, room), other;
    int64_t end = (int64_t)data.length + 1;
    HOLD((read.number == 16) == (start < -end + 1 || start == 0 || start > end));
    if (read.number != 0) {
        HOLD(read.number != 22 && read.number != 21 && (read.number < 9 || read.number > 15));
        HOLD(unpack(format, data, start, 0).number == read.number);
        return;
    }
    HOLD(is_list(read.result) && read.words[1] >= 1 && read.words[1] <= (uint64_t)end);
    HOLD(bound.number == 0 && read.result.length <= bound.words[0]);
    other = unpack(format, data, start > 0 && start < end ? start - end : start, read.result.length);
    HOLD(other.number == 0 && same(other.result, read.result) && other.words[1] == read.words[1]);
    if (read.result.length > 0)
        HOLD(unpack(format, data, start, read.result.length - 1).number == 22);
}

/* The list after its fields is empty, and so it is after more. */
static void check_fields(Slice list, uint8_t fields)
{
    HOLD(list_after(list, 0).length == list.length);
    HOLD(list_after(list, UINT64_MAX).length == 0);
    if (is_list(list))
        HOLD(is_list(list_after(list, fields)));
}

static void check_measuring(Slice format, uint64_t data_length)
{
    Outcome size = measure(format), bound = list_bound(format, data_length);
    HOLD(size.number <= 10 && (size.number != 0 || size.words[0] <= LARGEST));
    HOLD((bound.number == 21) == (data_length > LARGEST) && bound.number != 10);
    HOLD(bound.number != 0 || bound.words[0] <= LARGEST);
}

/* ---- trays */

/* The list behind the length at so many bytes; nothing where the run ends before it does. */
static Slice list_in(Slice run, size_t at)
{
    Slice list = {NULL, 0};
    if (run.length - at >= 2)
        list.length = (size_t)run.start[at] * 256 + run.start[at + 1];
    if (run.length - at >= 2 + list.length)
        list.start = run.start + at + 2;
    return list;
}

static bool is_run(Slice run)
{
    for (size_t at = 0; at < run.length; at += 2 + list_in(run, at).length)
        if (list_in(run, at).start == NULL)
            return false;
    return true;
}

/* A run of bytes: for each list a byte with the length of its values' bytes, and these. */
static Slice run_of(Slice bytes)
{
    uint8_t *run = kept_start(keep((Slice){(const uint8_t *)"", 0}));
    size_t length = 0, records = 0;
    for (size_t at = 0; at < bytes.length && records < RECORDS; records++) {
        size_t wanted = bytes.start[at++] % 32, there = lesser(wanted, bytes.length - at);
        Slice list = list_of((Slice){bytes.start + at, there});
        if (list.length > 65535 || length + 2 + list.length > REGION)
            break;
        memcpy(run + length, (uint8_t[]){(uint8_t)(list.length / 256), (uint8_t)list.length}, 2);
        memcpy(run + length + 2, list.start, list.length);
        length += 2 + list.length;
        at += there;
    }
    return (Slice){run, length};
}

/* A tray is refused so whatever the room is. */
static void check_refused_tray(Slice format, Slice run, const Outcome *whole, uint64_t number, uint64_t place)
{
    Outcome without_room = pack_tray(format, run, 0);
    HOLD(whole->number == number && whole->place == place);
    HOLD(without_room.number == number && without_room.place == place);
}

/* A tray is the records of single calls, the first refusal of one, or 22 where all are longer than the room. */
static void check_tray(Slice format, Slice run)
{
    Outcome whole = pack_tray(format, run, REGION), shorter;
    uint64_t place = 0;
    size_t length = 0;
    if (!is_run(run)) {
        check_refused_tray(format, run, &whole, DIGRIBBON_DAMAGED_RUN, 0);
        return;
    }
    for (size_t at = 0; at < run.length; at += 2 + list_in(run, at).length) {
        Outcome one = pack_plainly(format, list_in(run, at), REGION);
        place++;
        if (one.number != 0 && one.number != 22) {
            check_refused_tray(format, run, &whole, one.number, place);
            return;
        }
        if (one.number == 22 || length + one.result.length > REGION)
            length = REGION + 1;
        else if (whole.number == 0)
            HOLD(memcmp(whole.result.start + length, one.result.start, one.result.length) == 0);
        length += one.result.length;
    }
    HOLD(whole.number == (length > REGION ? 22 : 0) && whole.place == 0);
    if (whole.number != 0)
        return;
    HOLD(whole.result.length == length && same(pack_tray(format, run, length).result, whole.result));
    if (length == 0)
        return;
    shorter = pack_tray(format, run, length - 1);
    HOLD(shorter.number == 22 && shorter.place == 0);
}

/* ---- text lengths */

enum { PAIR = 4 };

typedef struct {
    size_t least, greatest;
} Pair;

static Pair pair_at(Slice pairs, size_t at)
{
    const uint8_t *pair = pairs.start + at;
    return (Pair){(size_t)pair[0] * 256 + pair[1], (size_t)pair[2] * 256 + pair[3]};
}

static bool has_reversed(Slice pairs)
{
    for (size_t at = 0; at < pairs.length; at += PAIR)
        if (pair_at(pairs, at).least > pair_at(pairs, at).greatest)
            return true;
    return false;
}

/* Pairs of bytes: two for each, and the lesser length is its first. */
static Slice pairs_of(Slice bytes)
{
    uint8_t *pairs = kept_start(keep((Slice){(const uint8_t *)"", 0}));
    size_t length = 0;
    for (size_t at = 0; at + 2 <= bytes.length; at += 2) {
        size_t first = text_length(bytes.start[at]), second = text_length(bytes.start[at + 1]);
        size_t least = lesser(first, second), greatest = first + second - least;
        uint8_t pair[PAIR] = {(uint8_t)(least / 256), (uint8_t)least, (uint8_t)(greatest / 256), (uint8_t)greatest};
        memcpy(pairs + length, pair, PAIR);
        length += PAIR;
    }
    return (Slice){pairs, length};
}

static size_t count_texts(Slice format)
{
    size_t count = 0;
    for (size_t at = 0; at < format.length; at = item_at(format, at).end)
        count += is_one_of(item_at(format, at).option, "zs");
    return count;
}

/* Puts a field: a text of so many letters under c, z and s, else the integer 0. */
static size_t put_field(uint8_t *at, Item item, size_t letters)
{
    bool is_text = is_one_of(item.option, "czs");
    size_t length = is_text ? letters : 8;
    memcpy(at, (uint8_t[]){is_text ? TEXT : INTEGER, (uint8_t)(length / 256), (uint8_t)length}, 3);
    memset(at + 3, is_text ? 'A' : 0, length);
    return 3 + length;
}

/*
 * Values that suit the items. The texts under z and s have the least lengths of their pairs (0), some between (1) or
 * the greatest (2). The list ends before the first text without a pair, or with a reversed one. Nothing where it is too
 * long.
 */
static Slice list_within(Slice format, Slice pairs, size_t where)
{
    uint8_t *list = kept_start(keep((Slice){(const uint8_t *)"", 0}));
    size_t length = 0, next = 0;
    for (size_t at = 0; at < format.length; at = item_at(format, at).end) {
        Item item = item_at(format, at);
        size_t letters = 0;
        if (is_one_of(item.option, "zs")) {
            if (next == pairs.length || pair_at(pairs, next).least > pair_at(pairs, next).greatest)
                break;
            letters = pair_at(pairs, next).least;
            letters += (pair_at(pairs, next).greatest - letters) * where / 2;
            next += PAIR;
        }
        if (length + 11 + letters > REGION / 4 * 3)
            return (Slice){NULL, 0};
        if (takes_value(item))
            length += put_field(list + length, item, letters);
    }
    return (Slice){list, length};
}

/* Texts of the least lengths give the least length of a record, of the greatest the greatest; others lie between. */
static void check_records_within(Slice format, Slice pairs, const Outcome *range)
{
    for (size_t where = 0; where <= 2; where++) {
        Slice list = list_within(format, pairs, where);
        Outcome record;
        if (list.start == NULL)
            return;
        record = pack_plainly(format, list, REGION);
        HOLD(record.number == 0 || record.number == 22);
        if (record.number == 22)
            HOLD(range->words[where == 0 ? 0 : 1] > REGION);
        else
            HOLD(where == 1 ? range->words[0] <= record.result.length && record.result.length <= range->words[1]
                            : range->words[where / 2] == record.result.length);
    }
}

/* A refusal is that of writing texts of the greatest lengths; 27 where such a text is missing by a reversed pair. */
static void check_refused_range(Slice format, Slice pairs, uint64_t number)
{
    Slice list = list_within(format, pairs, 2);
    Outcome record;
    if (list.start == NULL)
        return;
    record = pack_plainly(format, list, REGION);
    HOLD(number == (record.number == 11 && has_reversed(pairs) ? 27 : record.number));
}

/* 21 first. An accepted call takes a pair for each z and s, and no others are looked at; without them it measures. */
static void check_range(Slice format, Slice pairs)
{
    Outcome range = packsize_range(format, pairs), other = measure(format);
    size_t taken = PAIR * count_texts(format);
    HOLD((range.number == 21) == (pairs.length % PAIR != 0));
    if (range.number == 21)
        return;
    if (taken == 0)
        HOLD(range.number == other.number && range.words[0] == other.words[0] && range.words[1] == other.words[0]);
    if (range.number != 0) {
        check_refused_range(format, pairs, range.number);
        return;
    }
    HOLD(range.words[0] <= range.words[1] && range.words[1] <= LARGEST && taken <= pairs.length);
    other = packsize_range(format, (Slice){pairs.start, taken});
    HOLD(other.number == 0 && other.words[0] == range.words[0] && other.words[1] == range.words[1]);
    if (taken > 0)
        HOLD(packsize_range(format, (Slice){pairs.start, taken - PAIR}).number == 11);
    check_records_within(format, pairs, &range);
}

/* ---- dates */

/* An accepted date comes back from its number. Every month has 28 days, and none has 32. */
static void check_date(int64_t year, int64_t month, int64_t day)
{
    Outcome number = day_number(year, month, day), back;
    bool is_near = year >= 2000 && month >= 1 && month <= 12 && day >= 1 && day <= 31;
    HOLD(is_near || number.number == 24);
    HOLD(!is_near || day > 28 || number.number == (year > 2179 ? 25 : 0) || year == 2179);
    HOLD(year <= 2179 || number.number != 0);
    if (number.number != 0)
        return;
    HOLD(number.words[0] <= 65535);
    back = date((int64_t)number.words[0]);
    HOLD(back.number == 0 && back.words[0] == (uint64_t)year && back.words[1] == (uint64_t)month &&
         back.words[2] == (uint64_t)day);
}

/* A day comes back from its date. */
static void check_day(int64_t day)
{
    Outcome known = date(day), back;
    HOLD(known.number == (day < 0 ? 24 : day > 65535 ? 25 : 0));
    if (known.number != 0)
        return;
    back = day_number((int64_t)known.words[0], (int64_t)known.words[1], (int64_t)known.words[2]);
    HOLD(back.number == 0 && back.words[0] == (uint64_t)day);
}

/* 26 first, then 24, then 25. A pass of more months ends later. */
static void check_last_day(int64_t first, int64_t months)
{
    Outcome last = last_day(first, months), next;
    uint64_t refusal = months < 1 || months > 12 ? 26 : first < 0 ? 24 : first > 65535 ? 25 : 0;
    HOLD(last.number == refusal || (refusal == 0 && last.number == 25));
    if (refusal != 0)
        return;
    HOLD(last.number != 0 || (last.words[0] > (uint64_t)first && last.words[0] <= 65535));
    if (months == 12)
        return;
    next = last_day(first, months + 1);
    HOLD(next.number == 25 || (last.number == 0 && next.words[0] > last.words[0]));
}

/* ---- an input */

static State state_of(uint8_t byte)
{
    static const uint64_t lengths[] = {0, 1, 7, 15, LARGEST - 20, LARGEST - 1, LARGEST, LARGEST + 1};
    static const uint64_t limits[] = {1, 2, 4, 8, 16, 0, 3, 32};
    return (State){byte % 2, limits[byte / 2 % 8], lengths[byte / 16 % 8]};
}

/* The same bytes again and again, above 65,535. */
static Slice stretched(Slice bytes)
{
    Slice data = keep((Slice){(const uint8_t *)"", 0});
    for (; data.length < 70000 && bytes.length > 0; data.length += bytes.length)
        memcpy(kept_start(data) + data.length, bytes.start, bytes.length);
    return data;
}

int LLVMFuzzerInitialize(int *argc, char ***argv)
{
    (void)argc;
    map_regions();
    watch_coverage((*argv)[0]);
    return 0;
}

int LLVMFuzzerTestOneInput(const uint8_t *input, size_t size)
{
    enum { FLAGS, STATE, CUT, FROM, LENGTH, HEAD, RAW_LIST = 1, AT_FRONT = 2, STRETCHED = 4, BEHIND = 8, CUT_RUN = 16 };
    static const uint64_t edges[] = {0, 65535, 65536, LARGEST, LARGEST + 1, UINT64_MAX};
    Slice format, rest, list, data, run, pairs;
    Numbers numbers;
    Outcome whole;
    if (size < HEAD || size > 4096)
        return 0;
    next_kept = 0;
    at_front = (input[FLAGS] & AT_FRONT) != 0;
    is_behind = (input[FLAGS] & BEHIND) != 0;
    format = (Slice){input + HEAD, lesser(input[LENGTH], size - HEAD)};
    rest = (Slice){format.start + format.length, size - HEAD - format.length};
    list = (input[FLAGS] & RAW_LIST) != 0 ? rest : keep(list_of(rest));
    data = (input[FLAGS] & STRETCHED) != 0 ? stretched(rest) : rest;
    check_measuring(format, edges[input[STATE] % 6]);
    check_fields(list, input[CUT]);
    whole = check_writing(START, format, list);
    check_plain(format, list, &whole);
    check_cut(START, format, list, &whole, input[CUT]);
    if (whole.number == 0)
        check_back(format, list, &whole);
    whole = check_writing(state_of(input[STATE]), format, list);
    if (whole.number != 21)
        check_cut(state_of(input[STATE]), format, list, &whole, input[CUT]);
    check_reading(format, keep(data), (int8_t)input[FROM]);
    next_kept = 0;
    run = (input[FLAGS] & RAW_LIST) != 0 ? (Slice){rest.start, lesser(rest.length, 200)} : run_of(rest);
    if ((input[FLAGS] & CUT_RUN) != 0)
        run.length -= lesser(run.length, input[CUT] % 4);
    check_tray(format, run);
    next_kept = 0;
    pairs = (input[FLAGS] & RAW_LIST) != 0 ? (Slice){rest.start, rest.length / PAIR * PAIR} : pairs_of(rest);
    if ((input[FLAGS] & CUT_RUN) != 0)
        pairs.length -= lesser(pairs.length, input[CUT] % PAIR);
    check_range(format, pairs);
    numbers = numbers_of(rest.start, rest.length);
    check_date(numbers.year, numbers.month, numbers.day);
    check_day(numbers.number);
    check_last_day(numbers.number, numbers.month);
    return 0;
}
