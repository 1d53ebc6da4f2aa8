/*
 * The module "digribbon" for Lua 5.4 and later: pack, pack_tray, packsize, packsize_range, unpack, and a writer for
 * continued writing; day_number, date and last_day.
 *
 * Memory is the C stack's or a block of Lua's own, so an error that is raised here loses none. Whatever asks Lua for
 * memory can run finalizers, and so any code, that of the module included.
 */
#include <lauxlib.h>
#include <lua.h>
#include <stdbool.h>
#include <stdlib.h>
#include <string.h>
#include <xmmintrin.h>

#include "../include/digribbon.h"

#if LUA_VERSION_NUM < 504
#error "The module is for Lua 5.4 and later."
#endif
_Static_assert(sizeof(lua_Integer) == 8 && sizeof(lua_Number) == 8, "integers and floats of 64 bits");

#define REFUSAL "digribbon.refusal"
#define WRITER "digribbon.writer"

enum { OTHER, INTEGER, FLOAT, TEXT };          /* tags of a value list */
enum { HEAD = 3, NUMBER = 8, LONGEST = 65535 }; /* bytes of a field's tag and length, of a number, of a text at most */
enum { SMALL = 1024 };                         /* up to so many bytes lie on the C stack */

typedef struct {
    const uint8_t *start;
    size_t length;
} Slice;

typedef struct {
    uint64_t order, limit, length;
} State;

/* Values to be written by a format, from a state. */
typedef struct {
    State from;
    Slice format, list;
} Writing;

/* What continued writing answers. */
typedef struct {
    State next;
    uint64_t written, used, items;
} Written;

/* A part that was written, and the state that it went on from. */
typedef struct {
    State from;
    Written answer;
    const uint8_t *bytes;
} Part;

static Slice check_text(lua_State *L, int argument)
{
    Slice text;
    text.start = (const uint8_t *)luaL_checklstring(L, argument, &text.length);
    return text;
}

/* Room for a value list and for a record. */
typedef struct {
    uint8_t list[SMALL], record[SMALL];
} Small;

/* So many bytes: `small` where it suffices, else a block that stays on Lua's stack. */
static uint8_t *memory(lua_State *L, size_t length, uint8_t small[SMALL])
{
    return length <= SMALL ? small : lua_newuserdatauv(L, length, 0);
}

/* ---- refusals */

static const struct {
    const char *cause, *sentence;
} refusals[] = {
#define REFUSAL_ENTRY(number, name, cause, sentence) [number] = {cause, sentence},
    DIGRIBBON_REFUSALS(REFUSAL_ENTRY)
};

/* An argument's number as Lua's messages have it: of a method's call, self is not counted. */
static int shown(lua_State *L, int argument)
{
    lua_Debug call;
    bool is_method = lua_getstack(L, 0, &call) && lua_getinfo(L, "n", &call) && strcmp(call.namewhat, "method") == 0;
    return argument - is_method;
}

/* What a refusal is about: an argument; which value, which record of a tray, which pair, each from 1, or 0. */
typedef struct {
    int argument, value;
    lua_Integer record, pair;
} About;

static void set_place(lua_State *L, const char *name, lua_Integer place)
{
    if (place > 0) {
        lua_pushinteger(L, place);
        lua_setfield(L, -2, name);
    }
}

/* Pushes where in a tray or among pairs a refusal is; elsewhere the argument says it. */
static void push_place(lua_State *L, About about)
{
    if (about.pair > 0)
        lua_pushfstring(L, " at pair %I", about.pair);
    else if (about.record == 0)
        lua_pushliteral(L, "");
    else if (about.value == 0)
        lua_pushfstring(L, " at record %I", about.record);
    else
        lua_pushfstring(L, " at value %d of record %I", about.value, about.record);
}

/*
 * Raises a refusal: a table with its number, sentence and cause, the value, the record and the pair that it is about,
 * and as text a message as Lua's own of bad arguments, with the caller's place.
 */
static int refuse(lua_State *L, const char *function, uint64_t number, About about)
{
    const char *cause = "unknown", *sentence = "The library gave a number that this module does not know.";
    if (number < sizeof refusals / sizeof refusals[0]) {
        cause = refusals[number].cause;
        sentence = refusals[number].sentence;
    }
    lua_createtable(L, 0, 6);
    lua_pushinteger(L, (lua_Integer)number);
    lua_setfield(L, -2, "number");
    lua_pushstring(L, sentence);
    lua_setfield(L, -2, "sentence");
    lua_pushstring(L, cause);
    lua_setfield(L, -2, "cause");
    set_place(L, "value", about.value);
    set_place(L, "record", about.record);
    set_place(L, "pair", about.pair);
    luaL_where(L, 1);
    push_place(L, about);
    lua_pushfstring(L, "%sbad argument #%d to '%s' (refusal %d%s: %s)", lua_tostring(L, -2), shown(L, about.argument),
                    function, (int)number, lua_tostring(L, -1), sentence);
    lua_setfield(L, -4, "message");
    lua_pop(L, 2);
    luaL_setmetatable(L, REFUSAL);
    return lua_error(L);
}

static int refusal_tostring(lua_State *L)
{
    luaL_checktype(L, 1, LUA_TTABLE);
    lua_getfield(L, 1, "message");
    return 1;
}

/* What a call is refused by with the first so many of its values or pairs, or 0. */
typedef uint64_t Ask(const void *call, size_t first);

/*
 * Which of so many values or pairs a refusal is about. Where none is left, the next one. Else the first such that it
 * and those before it are refused for another reason than that none is left.
 */
static size_t refused_position(uint64_t number, size_t count, Ask *ask, const void *call)
{
    size_t before = 0, position = count;
    if (number == DIGRIBBON_NO_VALUE_LEFT)
        return count + 1;
    while (before + 1 < position) {
        size_t middle = before + (position - before) / 2;
        if (ask(call, middle) == DIGRIBBON_NO_VALUE_LEFT)
            before = middle;
        else
            position = middle;
    }
    return position;
}

/* ---- value lists */

static uint8_t *put_field(uint8_t *at, int tag, const void *content, size_t length)
{
    at[0] = (uint8_t)tag;
    at[1] = (uint8_t)(length / 256);
    at[2] = (uint8_t)(length % 256);
    memcpy(at + HEAD, content, length);
    return at + HEAD + length;
}

static uint8_t *put_number(uint8_t *at, int tag, uint64_t bits)
{
    uint8_t content[NUMBER];
    for (int i = NUMBER; i-- > 0; bits /= 256)
        content[i] = (uint8_t)(bits % 256);
    return put_field(at, tag, content, NUMBER);
}

/* A text that is longer than a list can hold is a value that no option takes. */
static bool is_text(lua_State *L, int index)
{
    return lua_type(L, index) == LUA_TSTRING && lua_rawlen(L, index) <= LONGEST;
}

static bool is_long_text(lua_State *L, int index)
{
    return lua_type(L, index) == LUA_TSTRING && !is_text(L, index);
}

static size_t field_length(lua_State *L, int index)
{
    if (lua_type(L, index) == LUA_TNUMBER)
        return HEAD + NUMBER;
    return HEAD + (is_text(L, index) ? lua_rawlen(L, index) : 0);
}

/* Inlined at both of its callers: a call costs 16 instructions a value. */
static inline __attribute__((always_inline)) uint8_t *put_value(lua_State *L, int index, uint8_t *at)
{
    if (is_text(L, index))
        return put_field(at, TEXT, lua_tostring(L, index), lua_rawlen(L, index));
    if (lua_isinteger(L, index))
        return put_number(at, INTEGER, (uint64_t)lua_tointeger(L, index));
    if (lua_type(L, index) == LUA_TNUMBER) {
        double number = lua_tonumber(L, index);
        uint64_t bits;
        memcpy(&bits, &number, sizeof bits);
        return put_number(at, FLOAT, bits);
    }
    return put_field(at, OTHER, "", 0);
}

/* So many arguments from `first` on, as a value list. */
static Slice list_of(lua_State *L, int first, int count, uint8_t small[SMALL])
{
    size_t length = 0;
    uint8_t *start, *end;
    for (int i = 0; i < count; i++)
        length += field_length(L, first + i);
    start = end = memory(L, length, small);
    for (int i = 0; i < count; i++)
        end = put_value(L, first + i, end);
    return (Slice){start, length};
}

/* Pushes the values of a list, and gives how many there are. */
static int push_values(lua_State *L, Slice list)
{
    int count = 0;
    for (const uint8_t *field = list.start, *end = field + list.length; field < end; count++) {
        const uint8_t *content = field + HEAD;
        size_t length = (size_t)field[1] * 256 + field[2];
        uint64_t bits = 0;
        double number;
        luaL_checkstack(L, 2, "too many results");
        if (field[0] == TEXT) {
            lua_pushlstring(L, (const char *)content, length);
        } else {
            for (size_t i = 0; i < length; i++)
                bits = bits * 256 + content[i];
            memcpy(&number, &bits, sizeof number);
            if (field[0] == INTEGER)
                lua_pushinteger(L, (lua_Integer)bits);
            else
                lua_pushnumber(L, number);
        }
        field = content + length;
    }
    return count;
}

/* ---- writing */

enum { FLAGS = 0x3F, DEFAULT = 0x1F80 }; /* of MXCSR: what happened so far; the default but for these */

/* Sets the default float environment, on which T of a float depends, and gives the one that was found. */
static unsigned set_default_environment(void)
{
    unsigned environment = _mm_getcsr();
    if ((environment & ~(unsigned)FLAGS) != DEFAULT)
        _mm_setcsr(DEFAULT);
    return environment;
}

static void set_back_environment(unsigned environment)
{
    if ((environment & ~(unsigned)FLAGS) != DEFAULT)
        _mm_setcsr(environment);
}

/* Continued writing. */
static uint64_t write_record(const Writing *writing, uint8_t *record, size_t room, Written *written)
{
    const State *from = &writing->from;
    Slice format = writing->format, list = writing->list;
    uint64_t answer[6], number;
    unsigned environment = set_default_environment();
    number = digribbon_pack_continued(from->order, from->limit, from->length, format.start, format.length, list.start,
                                      list.length, record, room, answer);
    set_back_environment(environment);
    if (number == 0)
        *written = (Written){{answer[0], answer[1], answer[2]}, answer[3], answer[4], answer[5]};
    return number;
}

/*
 * The sum of the c items' sizes in a format that gave 22. All other checks passed, so digits follow each c and the sum
 * is below 2^63.
 */
static size_t sizes_of_c(Slice format)
{
    size_t sum = 0;
    for (size_t at = 0; at < format.length; at++)
        if (format.start[at] == 'c')
            sum += strtoull((const char *)format.start + at + 1, NULL, 10);
    return sum;
}

/* Writes the first so many values of a writing, to no room. */
static uint64_t write_first(const void *call, size_t first)
{
    Writing writing = *(const Writing *)call;
    uint8_t record;
    uint64_t length;
    Written written;
    digribbon_list_after(writing.list.start, writing.list.length, first, &length);
    writing.list.length = length;
    return write_record(&writing, &record, 0, &written);
}

/* Which of so many values a refusal is about. */
static int refused_value(const Writing *writing, uint64_t number, int count)
{
    return (int)refused_position(number, (size_t)count, write_first, writing);
}

/* Whether a refusal of writing is about a value. */
static bool is_about_value(uint64_t number)
{
    return number >= DIGRIBBON_NO_VALUE_LEFT && number <= DIGRIBBON_TEXT_DOES_NOT_FIT;
}

/* Raises a refusal of writing, where the format is argument `at` and so many values follow. */
static int refuse_writing(lua_State *L, const Writing *writing, uint64_t number, int at, int count)
{
    int value = is_about_value(number) ? refused_value(writing, number, count) : 0;
    if (number == DIGRIBBON_WRONG_KIND && is_long_text(L, at + value))
        return luaL_argerror(L, at + value, "a text has at most 65,535 bytes");
    return refuse(L, "pack", number, (About){.argument = at + value, .value = value});
}

/*
 * Writes arguments by the format, which is argument `at`, from a state, and stores the next one there. No code of Lua
 * runs between the two.
 *
 * An option has at least a byte and takes at most one value, so no more values are looked at than the format has bytes.
 */
static Part write_part(lua_State *L, int at, State *state, Small *small)
{
    Slice format = check_text(L, at);
    size_t given = (size_t)(lua_gettop(L) - at);
    int count = (int)(given < format.length ? given : format.length);
    Slice list = list_of(L, at + 1, count, small->list);
    size_t room = list.length + 16 * format.length; /* enough but for a c that is longer than its text */
    uint8_t *record = memory(L, room, small->record);
    Writing writing = {*state, format, list};
    Written answer;
    uint64_t number = write_record(&writing, record, room, &answer);
    if (number == DIGRIBBON_RESULT_TOO_LONG) {
        room += sizes_of_c(format);
        record = memory(L, room, small->record);
        writing.from = *state;
        number = write_record(&writing, record, room, &answer);
    }
    if (number != 0)
        refuse_writing(L, &writing, number, at, count);
    *state = answer.next;
    return (Part){writing.from, answer, record};
}

static void push_bytes(lua_State *L, const Part *part)
{
    lua_pushlstring(L, (const char *)part->bytes, part->answer.written);
}

/* ---- trays */

enum { TRAY_FORMAT = 1, LISTS, KEY }; /* on pack_tray's stack: the format, the lists, the text "n" */
enum { LENGTH = 2 };                  /* bytes of the length before a list, and of a text length */

/* A format, and the lists as a run. */
typedef struct {
    Slice format, run;
    size_t records;
} Tray;

/*
 * Pushes a record's table, and gives how many of its values are looked at: n, where the table has it, else its length,
 * but no more than the format has bytes. Neither runs code of Lua nor asks for memory, unless it raises an error.
 */
static size_t push_record(lua_State *L, size_t record, size_t format_length)
{
    lua_Integer count;
    int is_integer = 1;
    if (lua_rawgeti(L, LISTS, (lua_Integer)record) != LUA_TTABLE)
        luaL_argerror(L, LISTS, lua_pushfstring(L, "record %I: table expected, got %s", (lua_Integer)record,
                                                luaL_typename(L, -1)));
    lua_pushvalue(L, KEY);
    if (lua_rawget(L, -2) == LUA_TNIL)
        count = (lua_Integer)lua_rawlen(L, -2);
    else
        count = lua_tointegerx(L, -1, &is_integer);
    if (!is_integer || count < 0)
        luaL_argerror(L, LISTS, lua_pushfstring(L, "record %I: n is no count of values", (lua_Integer)record));
    lua_pop(L, 1);
    return (size_t)count < format_length ? (size_t)count : format_length;
}

/* How long a record's list is, its length's bytes included. */
static size_t list_length(lua_State *L, size_t record, size_t format_length)
{
    size_t length = 0, count = push_record(L, record, format_length);
    for (size_t i = 1; i <= count; i++) {
        lua_rawgeti(L, -1, (lua_Integer)i);
        length += field_length(L, -1);
        lua_pop(L, 1);
    }
    lua_pop(L, 1);
    if (length > LONGEST)
        luaL_argerror(L, LISTS, lua_pushfstring(L, "record %I: the values take more than 65,535 bytes",
                                                (lua_Integer)record));
    return LENGTH + length;
}

static uint8_t *put_list(lua_State *L, size_t record, size_t format_length, uint8_t *at)
{
    uint8_t *end = at + LENGTH;
    size_t count = push_record(L, record, format_length), length;
    for (size_t i = 1; i <= count; i++) {
        lua_rawgeti(L, -1, (lua_Integer)i);
        end = put_value(L, -1, end);
        lua_pop(L, 1);
    }
    lua_pop(L, 1);
    length = (size_t)(end - at - LENGTH);
    at[0] = (uint8_t)(length / 256);
    at[1] = (uint8_t)(length % 256);
    return end;
}

/* Measures the run, and gives how long it is. */
static size_t run_length(lua_State *L, Tray *tray)
{
    size_t length = 0;
    tray->records = lua_rawlen(L, LISTS);
    for (size_t record = 1; record <= tray->records; record++)
        length += list_length(L, record, tray->format.length);
    return length;
}

/* Makes the run. To get memory for it can run a finalizer, which may change the tables, so they are measured again. */
static void make_run(lua_State *L, Tray *tray, uint8_t small[SMALL])
{
    size_t room = SMALL, length;
    uint8_t *start = small, *end;
    while ((length = run_length(L, tray)) > room) {
        lua_settop(L, KEY);
        room = length;
        start = memory(L, room, small);
    }
    end = start;
    for (size_t record = 1; record <= tray->records; record++)
        end = put_list(L, record, tray->format.length, end);
    tray->run = (Slice){start, length};
}

/* Room for a tray that gave 22, so has records: the header's sum, or 2^63-1 where that is less, which can't be had. */
static size_t tray_room(const Tray *tray)
{
    size_t each = 16 * tray->format.length + sizes_of_c(tray->format), most = SIZE_MAX / 2 - tray->run.length;
    return tray->run.length + (each > most / tray->records ? most : each * tray->records);
}

static uint64_t write_tray(const Tray *tray, uint8_t *bytes, size_t room, uint64_t *place, uint64_t *length)
{
    unsigned environment = set_default_environment();
    uint64_t number = digribbon_pack_tray(tray->format.start, tray->format.length, tray->run.start, tray->run.length,
                                          bytes, room, place, length);
    set_back_environment(environment);
    return number;
}

/* A record's list, from 1. */
static Slice list_at(Slice run, uint64_t record)
{
    const uint8_t *at = run.start;
    for (; record > 1; record--)
        at += LENGTH + (size_t)at[0] * 256 + at[1];
    return (Slice){at + LENGTH, (size_t)at[0] * 256 + at[1]};
}

static int field_count(Slice list)
{
    int count = 0;
    for (const uint8_t *field = list.start, *end = field + list.length; field < end; count++)
        field += HEAD + (size_t)field[1] * 256 + field[2];
    return count;
}

/* Raises a refusal of a tray. */
static int refuse_tray(lua_State *L, const Tray *tray, uint64_t number, uint64_t place)
{
    About about = {.argument = TRAY_FORMAT, .record = (lua_Integer)place};
    if (is_about_value(number)) {
        Writing writing = {{0, 1, 0}, tray->format, list_at(tray->run, place)};
        about.argument = LISTS;
        about.value = refused_value(&writing, number, field_count(writing.list));
    }
    if (number == DIGRIBBON_WRONG_KIND && lua_rawgeti(L, LISTS, about.record) == LUA_TTABLE) {
        lua_rawgeti(L, -1, about.value);
        if (is_long_text(L, -1))
            return luaL_argerror(L, LISTS, lua_pushfstring(L, "value %d of record %I: a text has at most 65,535 bytes",
                                                           about.value, about.record));
    }
    return refuse(L, "pack_tray", number, about);
}

/* ---- text lengths */

enum { RANGE_FORMAT = 1, LENGTHS }; /* packsize_range's arguments: the format, the pairs of text lengths */
enum { PAIR = 4 };                  /* bytes of a pair */

/* A format, and the pairs for its texts. */
typedef struct {
    Slice format, pairs;
} Lengths;

/* Puts a text length of the pair at the stack's top: its first is the least, its second the greatest. */
static void put_text_length(lua_State *L, size_t pair, int place, uint8_t at[LENGTH])
{
    int is_integer;
    lua_Integer length;
    lua_rawgeti(L, -1, place);
    length = lua_tointegerx(L, -1, &is_integer);
    if (!is_integer || length < 0 || length > LONGEST)
        luaL_argerror(L, LENGTHS, lua_pushfstring(L, "pair %I: its %s text length is no integer of 0 to 65,535",
                                                  (lua_Integer)pair, place == 1 ? "least" : "greatest"));
    at[0] = (uint8_t)(length / 256);
    at[1] = (uint8_t)(length % 256);
    lua_pop(L, 1);
}

static void put_pair(lua_State *L, size_t pair, uint8_t at[PAIR])
{
    if (lua_rawgeti(L, LENGTHS, (lua_Integer)pair) != LUA_TTABLE)
        luaL_argerror(L, LENGTHS, lua_pushfstring(L, "pair %I: table expected, got %s", (lua_Integer)pair,
                                                  luaL_typename(L, -1)));
    put_text_length(L, pair, 1, at);
    put_text_length(L, pair, 2, at + LENGTH);
    lua_pop(L, 1);
}

/* Makes the pairs. To get memory for them can run a finalizer, which may change the table, so it is measured again. */
static Slice make_pairs(lua_State *L, uint8_t small[SMALL])
{
    size_t room = SMALL, length;
    uint8_t *start = small;
    while ((length = PAIR * lua_rawlen(L, LENGTHS)) > room) {
        lua_settop(L, LENGTHS);
        room = length;
        start = memory(L, room, small);
    }
    for (size_t pair = 1; pair <= length / PAIR; pair++)
        put_pair(L, pair, start + (pair - 1) * PAIR);
    return (Slice){start, length};
}

/* Measures with the first so many pairs. */
static uint64_t measure_first(const void *call, size_t first)
{
    const Lengths *lengths = call;
    uint64_t answer[2];
    return digribbon_packsize_range(lengths->format.start, lengths->format.length, lengths->pairs.start, PAIR * first,
                                    answer);
}

/* Whether a refusal of packsize_range is about a pair. */
static bool is_about_pair(uint64_t number)
{
    return number == DIGRIBBON_NO_VALUE_LEFT || number == DIGRIBBON_TEXT_DOES_NOT_FIT ||
           number == DIGRIBBON_LEAST_ABOVE_GREATEST;
}

/* Raises a refusal of packsize_range. */
static int refuse_lengths(lua_State *L, const Lengths *lengths, uint64_t number)
{
    About about = {.argument = RANGE_FORMAT};
    if (is_about_pair(number)) {
        about.argument = LENGTHS;
        about.pair = (lua_Integer)refused_position(number, lengths->pairs.length / PAIR, measure_first, lengths);
    }
    return refuse(L, "packsize_range", number, about);
}

/* ---- the module's functions */

/* pack(fmt, v1, v2, ...): the record */
static int pack(lua_State *L)
{
    State state = {0, 1, 0};
    Small small;
    Part part = write_part(L, 1, &state, &small);
    push_bytes(L, &part);
    return 1;
}

/* pack_tray(fmt, {{v1, v2, ...}, {v1, v2, ...}, ...}): the records of all tables, back to back */
static int pack_tray(lua_State *L)
{
    Small small;
    Tray tray = {.format = check_text(L, TRAY_FORMAT)};
    size_t room;
    uint8_t *bytes;
    uint64_t place, length, number;
    luaL_checktype(L, LISTS, LUA_TTABLE);
    lua_settop(L, LISTS);
    lua_pushliteral(L, "n");
    make_run(L, &tray, small.list);
    room = tray.run.length + 16 * tray.format.length; /* enough for records that are hardly longer than their lists */
    bytes = memory(L, room, small.record);
    number = write_tray(&tray, bytes, room, &place, &length);
    if (number == DIGRIBBON_RESULT_TOO_LONG) {
        room = tray_room(&tray);
        bytes = memory(L, room, small.record);
        number = write_tray(&tray, bytes, room, &place, &length);
    }
    if (number != 0)
        return refuse_tray(L, &tray, number, place);
    lua_pushlstring(L, (const char *)bytes, length);
    return 1;
}

/* packsize(fmt): the record's length */
static int packsize(lua_State *L)
{
    Slice format = check_text(L, 1);
    uint64_t size;
    uint64_t number = digribbon_packsize(format.start, format.length, &size);
    if (number != 0)
        return refuse(L, "packsize", number, (About){.argument = 1});
    lua_pushinteger(L, (lua_Integer)size);
    return 1;
}

/* packsize_range(fmt, {{least, greatest}, ...}): the least and the greatest length of a record */
static int packsize_range(lua_State *L)
{
    Lengths lengths = {.format = check_text(L, RANGE_FORMAT)};
    uint8_t small[SMALL];
    uint64_t answer[2], number;
    luaL_checktype(L, LENGTHS, LUA_TTABLE);
    lua_settop(L, LENGTHS);
    lengths.pairs = make_pairs(L, small);
    number = digribbon_packsize_range(lengths.format.start, lengths.format.length, lengths.pairs.start,
                                      lengths.pairs.length, answer);
    if (number != 0)
        return refuse_lengths(L, &lengths, number);
    lua_pushinteger(L, (lua_Integer)answer[0]);
    lua_pushinteger(L, (lua_Integer)answer[1]);
    return 2;
}

/* How long a list of a reading is at most: a value's option is a byte of the format, and the texts lie apart. */
static size_t list_room(Slice format, Slice data)
{
    uint64_t room = (HEAD + NUMBER) * format.length + data.length, bound;
    if (digribbon_list_bound(format.start, format.length, data.length, &bound) == 0 && bound < room)
        room = bound;
    return room;
}

/* The argument of unpack that a refusal is about. */
static int refused_argument(uint64_t number)
{
    if (number == DIGRIBBON_START_OUTSIDE)
        return 3;
    return number < DIGRIBBON_START_OUTSIDE ? 1 : 2;
}

/* unpack(fmt, s [, pos]): the values, and the position after the last byte read */
static int unpack(lua_State *L)
{
    Slice format = check_text(L, 1), data = check_text(L, 2);
    lua_Integer start = luaL_optinteger(L, 3, 1);
    uint8_t small[SMALL], *list = small;
    uint64_t answer[2];
    int count;
    uint64_t number =
        digribbon_unpack(format.start, format.length, data.start, data.length, start, list, SMALL, answer);
    if (number == DIGRIBBON_RESULT_TOO_LONG) {
        size_t room = list_room(format, data);
        list = memory(L, room, small);
        number = digribbon_unpack(format.start, format.length, data.start, data.length, start, list, room, answer);
    }
    if (number != 0)
        return refuse(L, "unpack", number, (About){.argument = refused_argument(number)});
    count = push_values(L, (Slice){list, answer[0]});
    luaL_checkstack(L, 1, "too many results");
    lua_pushinteger(L, (lua_Integer)answer[1]);
    return count + 1;
}

static const char *const orders[] = {"<", ">", NULL};

/* Refuses a state that is none, by its limit or its length, which are arguments 2 and 3. */
static void check_state(lua_State *L, State state)
{
    Slice nothing = {(const uint8_t *)"", 0};
    Writing by_limit = {{state.order, state.limit, 0}, nothing, nothing}, by_length = {state, nothing, nothing};
    uint8_t record;
    Written written;
    uint64_t number = write_record(&by_limit, &record, 0, &written);
    if (number != 0)
        refuse(L, "writer", number, (About){.argument = 2});
    number = write_record(&by_length, &record, 0, &written);
    if (number != 0)
        refuse(L, "writer", number, (About){.argument = 3});
}

/* writer([order [, limit [, length]]]): a writer at that state, else at the start state */
static int writer(lua_State *L)
{
    State from = {(uint64_t)luaL_checkoption(L, 1, "<", orders), (uint64_t)luaL_optinteger(L, 2, 1),
                  (uint64_t)luaL_optinteger(L, 3, 0)};
    State *state;
    check_state(L, from);
    state = lua_newuserdatauv(L, sizeof *state, 0);
    *state = from;
    luaL_setmetatable(L, WRITER);
    return 1;
}

/* push_bytes as a function of Lua. */
static int pushed_bytes(lua_State *L)
{
    push_bytes(L, lua_touserdata(L, 1));
    return 1;
}

/*
 * writer:pack(fmt, v1, v2, ...): the part's bytes, how many values it used, how many items it ran
 *
 * Where there is no memory for the bytes, the writer goes back to where it was, unless a finalizer has used it since.
 */
static int writer_pack(lua_State *L)
{
    State *state = luaL_checkudata(L, 1, WRITER);
    Small small;
    Part part = write_part(L, 2, state, &small);
    lua_pushcfunction(L, pushed_bytes);
    lua_pushlightuserdata(L, &part);
    if (lua_pcall(L, 1, 1, 0) != LUA_OK) {
        if (memcmp(state, &part.answer.next, sizeof *state) == 0)
            *state = part.from;
        return lua_error(L);
    }
    lua_pushinteger(L, (lua_Integer)part.answer.used);
    lua_pushinteger(L, (lua_Integer)part.answer.items);
    return 3;
}

/* writer:state(): order, limit and length, as writer takes them */
static int writer_state(lua_State *L)
{
    const State *state = luaL_checkudata(L, 1, WRITER);
    lua_pushstring(L, orders[state->order != 0]);
    lua_pushinteger(L, (lua_Integer)state->limit);
    lua_pushinteger(L, (lua_Integer)state->length);
    return 3;
}

/* The argument of day_number that a refusal is about: the first that is wrong whatever those behind it are. */
static int refused_part_of_date(uint64_t number, lua_Integer year, lua_Integer month)
{
    uint64_t day;
    if (number != DIGRIBBON_NO_SUCH_DATE || digribbon_day_number(year, 1, 1, &day) == number)
        return 1;
    return digribbon_day_number(year, month, 1, &day) == number ? 2 : 3;
}

/* day_number(year, month, day): the day's number */
static int day_number(lua_State *L)
{
    lua_Integer year = luaL_checkinteger(L, 1), month = luaL_checkinteger(L, 2), day = luaL_checkinteger(L, 3);
    uint64_t answer;
    uint64_t number = digribbon_day_number(year, month, day, &answer);
    if (number != 0)
        return refuse(L, "day_number", number, (About){.argument = refused_part_of_date(number, year, month)});
    lua_pushinteger(L, (lua_Integer)answer);
    return 1;
}

/* date(day): the year, the month and the day of the month of a day's number */
static int date(lua_State *L)
{
    uint64_t answer[3];
    uint64_t number = digribbon_date(luaL_checkinteger(L, 1), answer);
    if (number != 0)
        return refuse(L, "date", number, (About){.argument = 1});
    for (int i = 0; i < 3; i++)
        lua_pushinteger(L, (lua_Integer)answer[i]);
    return 3;
}

/* last_day(first, months): the number of a pass's last valid day */
static int last_day(lua_State *L)
{
    lua_Integer first = luaL_checkinteger(L, 1), months = luaL_checkinteger(L, 2);
    uint64_t answer;
    uint64_t number = digribbon_last_day(first, months, &answer);
    if (number != 0)
        return refuse(L, "last_day", number, (About){.argument = number == DIGRIBBON_MONTHS_OUTSIDE ? 2 : 1});
    lua_pushinteger(L, (lua_Integer)answer);
    return 1;
}

static const luaL_Reg functions[] = {
    {"pack", pack},
    {"pack_tray", pack_tray},
    {"packsize", packsize},
    {"packsize_range", packsize_range},
    {"unpack", unpack},
    {"writer", writer},
    {"day_number", day_number},
    {"date", date},
    {"last_day", last_day},
    {NULL, NULL}};

static const luaL_Reg writer_methods[] = {{"pack", writer_pack}, {"state", writer_state}, {NULL, NULL}};

__attribute__((visibility("default"))) int luaopen_digribbon(lua_State *L)
{
    luaL_newmetatable(L, REFUSAL);
    lua_pushcfunction(L, refusal_tostring);
    lua_setfield(L, -2, "__tostring");
    luaL_newmetatable(L, WRITER);
    luaL_newlib(L, writer_methods);
    lua_setfield(L, -2, "__index");
    luaL_newlib(L, functions);
    lua_pushliteral(L, DIGRIBBON_VERSION);
    lua_setfield(L, -2, "_VERSION");
    return 1;
}
