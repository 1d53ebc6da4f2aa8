/*
 * A fuzz target over the Lua module, for libFuzzer, with memory that can't be had. An input is
 *   - a byte each: the function; the float environment; the state or the start; the format's length;
 *   - the format;
 *   - the bytes of which values, data, text lengths, days and dates are made.
 *
 * The function is called where 0, 1, 2 .. blocks of memory can be had, until these suffice. Each lack of memory must be
 * raised as Lua's error, and leave a writer as it was. Then what the function gives is held to the header's calls. All
 * memory is given back, and the float environment stays.
 */
#include "../include/digribbon.h"
#include "numbers.h"
#include <lauxlib.h>
#include <lua.h>
#include <stdbool.h>
#include <stdio.h>
#include <stdlib.h>
#include <string.h>
#include <xmmintrin.h>

enum { ROOM = 1 << 20, LARGEST_BLOCK = 1 << 22, SLACK = 1 << 20, TRIES = 40 };
enum { VALUES = 100, RECORDS = 12, LONGEST = 65535, PAIR = 4, PAIRS = 1000 };

#define HOLD(promise) \
    do { \
        if (!(promise)) { \
            fprintf(stderr, "module.c:%d: broken: %s\n", __LINE__, #promise); \
            abort(); \
        } \
    } while (0)

typedef struct {
    const uint8_t *start;
    size_t length;
} Slice;

typedef struct {
    uint64_t order, limit, length;
} State;

/* What the header's call gives: a refusal's number, or 0, the answer's words, the record or the list. */
static struct {
    uint64_t number, words[6];
    uint8_t result[ROOM];
} expected;

int luaopen_digribbon(lua_State *L);

/* ---- memory */

static struct {
    size_t used;
    long left; /* how many more blocks can be had; below 0, as many as are wanted */
} memory = {0, -1};

static void *allocate(void *data, void *block, size_t size, size_t new_size)
{
    size_t old_size = block == NULL ? 0 : size;
    void *moved;
    (void)data;
    if (new_size > old_size) {
        if (memory.left == 0 || new_size > LARGEST_BLOCK)
            return NULL;
        memory.left -= memory.left > 0;
    }
    memory.used += new_size - old_size;
    if (new_size == 0) {
        free(block);
        return NULL;
    }
    moved = realloc(block, new_size);
    HOLD(moved != NULL);
    return moved;
}

/* ---- values */

enum { OTHER, INTEGER, FLOAT, TEXT };

static struct {
    uint8_t bytes[ROOM];
    size_t length;
    int count;
    bool has_long_text;
} list;

static uint8_t long_text[LONGEST + 1];

static void add_field(int tag, const void *content, size_t length)
{
    HOLD(list.length + 3 + length <= ROOM);
    memcpy(list.bytes + list.length, (uint8_t[]){(uint8_t)tag, (uint8_t)(length / 256), (uint8_t)(length % 256)}, 3);
    memcpy(list.bytes + list.length + 3, content, length);
    list.length += 3 + length;
    list.count++;
}

/* Pushes a value of bytes, adds it to the list, and gives how many bytes it took. */
static size_t push_value(lua_State *L, Slice bytes)
{
    uint8_t kind = bytes.start[0] % 6, number[8] = {0};
    uint64_t bits = 0;
    double as_float;
    if (kind == TEXT || kind == 4) { /* a text; one of 65,535 bytes, or of one more */
        size_t wanted = bytes.length > 1 ? bytes.start[1] : 0, there = bytes.length > 2 ? bytes.length - 2 : 0;
        Slice text = {bytes.start + bytes.length - there, wanted < there ? wanted : there};
        if (kind == 4)
            text = (Slice){long_text, LONGEST + wanted % 2};
        lua_pushlstring(L, (const char *)text.start, text.length);
        list.has_long_text = list.has_long_text || text.length > LONGEST;
        add_field(text.length > LONGEST ? OTHER : TEXT, text.start, text.length > LONGEST ? 0 : text.length);
        return kind == 4 ? 2 : 2 + text.length;
    }
    memcpy(number, bytes.start + 1, bytes.length - 1 < 8 ? bytes.length - 1 : 8);
    for (int i = 0; i < 8; i++)
        bits = bits * 256 + number[i];
    memcpy(&as_float, &bits, 8);
    if (kind == INTEGER)
        lua_pushinteger(L, (lua_Integer)bits);
    else if (kind == FLOAT)
        lua_pushnumber(L, as_float);
    else
        lua_pushboolean(L, kind == 5);
    add_field(kind == INTEGER || kind == FLOAT ? kind : OTHER, number, kind == INTEGER || kind == FLOAT ? 8 : 0);
    return kind == INTEGER || kind == FLOAT ? 9 : 1;
}

static void push_values(lua_State *L, Slice bytes)
{
    list.length = 0;
    list.count = 0;
    list.has_long_text = false;
    while (bytes.length > 0 && list.count < VALUES && list.length < 3 * LONGEST) {
        size_t taken = push_value(L, bytes);
        taken = taken < bytes.length ? taken : bytes.length;
        bytes = (Slice){bytes.start + taken, bytes.length - taken};
    }
}

static struct {
    uint8_t bytes[RECORDS * (2 + LONGEST)];
    size_t length;
    bool has_long_text, has_long_list;
    uint64_t place;
} run;

/* Adds the list, as much of it as a format of so many bytes can take. */
static void add_list(size_t format_length)
{
    uint64_t length;
    digribbon_list_after(list.bytes, list.length, format_length, &length);
    run.has_long_text = run.has_long_text || list.has_long_text;
    run.has_long_list = run.has_long_list || length > LONGEST;
    if (length > LONGEST)
        return;
    memcpy(run.bytes + run.length, (uint8_t[]){(uint8_t)(length / 256), (uint8_t)length}, 2);
    memcpy(run.bytes + run.length + 2, list.bytes, length);
    run.length += 2 + length;
}

/* Pushes a table of tables: for each a byte with the length of its values' bytes, and these. */
static void push_lists(lua_State *L, Slice bytes, size_t format_length)
{
    run.length = 0;
    run.has_long_text = run.has_long_list = false;
    lua_newtable(L);
    for (int record = 1; bytes.length > 0 && record <= RECORDS; record++) {
        size_t wanted = bytes.start[0] % 32, there = wanted < bytes.length - 1 ? wanted : bytes.length - 1;
        lua_newtable(L);
        push_values(L, (Slice){bytes.start + 1, there});
        for (int i = list.count; i > 0; i--)
            lua_rawseti(L, -1 - i, i);
        lua_rawseti(L, -2, record);
        add_list(format_length);
        bytes = (Slice){bytes.start + 1 + there, bytes.length - 1 - there};
    }
}

static struct {
    uint8_t bytes[PAIR * PAIRS];
    size_t length;
    bool has_bad_pair;
    Slice format;
} pairs;

/* Pushes a number as an integer, or as the float that equals it. */
static void push_integer(lua_State *L, int64_t number, bool as_float)
{
    if (as_float && number == (int32_t)number)
        lua_pushnumber(L, (lua_Number)number);
    else
        lua_pushinteger(L, number);
}

/* Pushes a pair of three bytes, and adds it. By the first of them it may be no table, lack a length, or be too long. */
static void push_pair(lua_State *L, const uint8_t bytes[3])
{
    enum { NO_TABLE = 29, ONE_LENGTH, TOO_LONG };
    int kind = bytes[0] % 32, least = bytes[1], greatest = bytes[0] < 64 ? bytes[2] : bytes[1] + bytes[2] * 256;
    uint8_t pair[PAIR] = {0, (uint8_t)least, (uint8_t)(greatest / 256), (uint8_t)greatest};
    memcpy(pairs.bytes + pairs.length, pair, PAIR);
    pairs.length += PAIR;
    pairs.has_bad_pair = pairs.has_bad_pair || kind >= NO_TABLE;
    if (kind == NO_TABLE) {
        lua_pushinteger(L, least);
        return;
    }
    lua_createtable(L, 2, 0);
    push_integer(L, kind == TOO_LONG ? LONGEST + 1 : least, kind % 2 == 0);
    lua_rawseti(L, -2, 1);
    if (kind == ONE_LENGTH)
        return;
    push_integer(L, greatest, kind % 3 == 0);
    lua_rawseti(L, -2, 2);
}

/* Pushes a table of pairs. A byte before each says how often it stands there. */
static void push_lengths(lua_State *L, Slice bytes)
{
    pairs.length = 0;
    pairs.has_bad_pair = false;
    lua_newtable(L);
    for (; bytes.length >= 4; bytes = (Slice){bytes.start + 4, bytes.length - 4})
        for (int times = bytes.start[0] < 240 ? 1 : 100; times > 0 && pairs.length < sizeof pairs.bytes; times--) {
            push_pair(L, bytes.start + 1);
            lua_rawseti(L, -2, (lua_Integer)(pairs.length / PAIR));
        }
}

/* ---- what a function gave, from the stack's index `first` on */

static void check_results(lua_State *L, int first)
{
    const uint8_t *field = expected.result, *end = field + expected.words[0];
    for (; field < end; first++) {
        size_t length = (size_t)field[1] * 256 + field[2];
        uint64_t bits = 0, given;
        lua_Number as_float = lua_tonumber(L, first);
        for (size_t i = 0; i < 8 && field[0] != TEXT; i++)
            bits = bits * 256 + field[3 + i];
        memcpy(&given, &as_float, 8);
        if (field[0] == TEXT)
            HOLD(lua_type(L, first) == LUA_TSTRING && lua_rawlen(L, first) == length &&
                 memcmp(lua_tostring(L, first), field + 3, length) == 0);
        else if (field[0] == INTEGER)
            HOLD(lua_isinteger(L, first) && (uint64_t)lua_tointeger(L, first) == bits);
        else
            HOLD(lua_type(L, first) == LUA_TNUMBER && !lua_isinteger(L, first) && given == bits);
        field += 3 + length;
    }
    HOLD(lua_gettop(L) == first && (uint64_t)lua_tointeger(L, first) == expected.words[1]);
}

/* So many integers, the answer's words. */
static void check_words(lua_State *L, int first, int words)
{
    HOLD(lua_gettop(L) == first + words - 1);
    for (int i = 0; i < words; i++)
        HOLD(lua_isinteger(L, first + i) && (uint64_t)lua_tointeger(L, first + i) == expected.words[i]);
}

static void check_record(lua_State *L, int first)
{
    HOLD(lua_type(L, first) == LUA_TSTRING && lua_rawlen(L, first) == expected.words[3]);
    HOLD(memcmp(lua_tostring(L, first), expected.result, expected.words[3]) == 0);
}

/* An error of Lua's own: a text, or a list, has more than 65,535 bytes. */
static bool is_too_long(lua_State *L)
{
    return lua_type(L, -1) == LUA_TSTRING && strstr(lua_tostring(L, -1), "65,535") != NULL;
}

/* What the header's call gives with the first so many pairs. */
static uint64_t range_refusal(size_t first)
{
    uint64_t words[2];
    return digribbon_packsize_range(pairs.format.start, pairs.format.length, pairs.bytes, PAIR * first, words);
}

/* Of record lengths, the pair that a refusal is about: before it none is left, and with it the refusal comes. */
static void check_pair(lua_State *L, bool is_range)
{
    size_t pair, count = pairs.length / PAIR;
    lua_getfield(L, -1, "pair");
    pair = (size_t)lua_tointeger(L, -1);
    if (is_range && expected.number == 11)
        HOLD(pair == count + 1);
    else if (is_range && (expected.number == 15 || expected.number == 27))
        HOLD(pair >= 1 && pair <= count && range_refusal(pair - 1) == 11 && range_refusal(pair) == expected.number);
    else
        HOLD(lua_isnil(L, -1));
    lua_pop(L, 1);
}

/*
 * The refusal's number and, of a tray, its record; of writing the value too, of record lengths the pair, where it is
 * about one.
 */
static void check_refusal(lua_State *L, bool is_writing, bool is_range, uint64_t record)
{
    if (list.has_long_text && expected.number == DIGRIBBON_WRONG_KIND && is_too_long(L))
        return;
    HOLD(lua_istable(L, -1) && lua_getfield(L, -1, "number") == LUA_TNUMBER);
    HOLD((uint64_t)lua_tointeger(L, -1) == expected.number);
    lua_getfield(L, -2, "record");
    HOLD(record > 0 ? (uint64_t)lua_tointeger(L, -1) == record : lua_isnil(L, -1));
    lua_pop(L, 1);
    lua_getfield(L, -2, "value");
    if (is_writing && expected.number >= 11 && expected.number <= 15)
        HOLD(lua_tointeger(L, -1) >= 1 && lua_tointeger(L, -1) <= list.count + (expected.number == 11));
    else
        HOLD(lua_isnil(L, -1));
    lua_pop(L, 2);
    check_pair(L, is_range);
    HOLD(strstr(luaL_tolstring(L, -1, NULL), "bad argument #") != NULL);
}

/* ---- an input */

enum { PACK, PACKSIZE, UNPACK, WRITER, TRAY, RANGE, DAY_NUMBER, DATE, LAST_DAY, FUNCTIONS };

static lua_State *lua;
static int module;
static size_t memory_at_start;

/* Pushes the arguments of a function about days or dates, and works out what is expected. */
static void prepare_dates(int function, Slice rest, bool as_float)
{
    Numbers numbers = numbers_of(rest.start, rest.length);
    if (function == DAY_NUMBER) {
        push_integer(lua, numbers.year, as_float);
        push_integer(lua, numbers.month, as_float);
        push_integer(lua, numbers.day, as_float);
        expected.number = digribbon_day_number(numbers.year, numbers.month, numbers.day, expected.words);
        return;
    }
    push_integer(lua, numbers.number, as_float);
    if (function == DATE) {
        expected.number = digribbon_date(numbers.number, expected.words);
    } else {
        push_integer(lua, numbers.month, as_float);
        expected.number = digribbon_last_day(numbers.number, numbers.month, expected.words);
    }
}

/* Pushes the function and its arguments, and works out what is expected. */
static void prepare(int function, State from, int64_t start, Slice format, Slice rest)
{
    static const char *const names[] = {"pack",           "packsize",   "unpack", "writer",  "pack_tray",
                                        "packsize_range", "day_number", "date",   "last_day"};
    lua_rawgeti(lua, LUA_REGISTRYINDEX, module);
    lua_getfield(lua, -1, names[function]);
    if (function == WRITER) {
        lua_pushstring(lua, from.order ? ">" : "<");
        lua_pushinteger(lua, (lua_Integer)from.limit);
        lua_pushinteger(lua, (lua_Integer)from.length);
        lua_call(lua, 3, 1);
        lua_getfield(lua, -1, "pack");
        lua_insert(lua, -2);
    }
    lua_remove(lua, 1);
    if (function >= DAY_NUMBER) {
        prepare_dates(function, rest, start % 2 != 0);
        return;
    }
    lua_pushlstring(lua, (const char *)format.start, format.length);
    if (function == PACKSIZE) {
        expected.number = digribbon_packsize(format.start, format.length, expected.words);
    } else if (function == UNPACK) {
        lua_pushlstring(lua, (const char *)rest.start, rest.length);
        lua_pushinteger(lua, start);
        expected.number = digribbon_unpack(format.start, format.length, rest.start, rest.length, start,
                                           expected.result, ROOM, expected.words);
    } else if (function == RANGE) {
        push_lengths(lua, rest);
        pairs.format = format;
        expected.number = digribbon_packsize_range(format.start, format.length, pairs.bytes, pairs.length,
                                                   expected.words);
    } else if (function == TRAY) {
        push_lists(lua, rest, format.length);
        expected.number = digribbon_pack_tray(format.start, format.length, run.bytes, run.length, expected.result, ROOM,
                                              &run.place, &expected.words[3]);
        list.count = VALUES; /* of whichever list */
        list.has_long_text = run.has_long_text;
    } else {
        push_values(lua, rest);
        expected.number = digribbon_pack_continued(from.order, from.limit, from.length, format.start, format.length,
                                                   list.bytes, list.length, expected.result, ROOM, expected.words);
    }
}

/* Calls the function, which stands at the stack's front with its arguments, with so many blocks of memory. */
static int call(long blocks, unsigned environment)
{
    int arguments = lua_gettop(lua), status;
    HOLD(lua_checkstack(lua, arguments + LUA_MINSTACK));
    for (int i = 1; i <= arguments; i++)
        lua_pushvalue(lua, i);
    memory.left = blocks;
    _mm_setcsr(environment);
    status = lua_pcall(lua, arguments - 1, LUA_MULTRET, 0);
    HOLD((_mm_getcsr() & ~0x3Fu) == environment);
    _mm_setcsr(0x1F80);
    memory.left = -1;
    return status;
}

static void check(int function, int status, int first, const State *state, State from)
{
    bool is_writing = function == PACK || function == WRITER || function == TRAY;
    State next = {expected.words[0], expected.words[1], expected.words[2]};
    if (function == TRAY && run.has_long_list) {
        HOLD(status == LUA_ERRRUN && is_too_long(lua));
        return;
    }
    if (function == RANGE && pairs.has_bad_pair) {
        HOLD(status == LUA_ERRRUN && lua_type(lua, -1) == LUA_TSTRING && strstr(lua_tostring(lua, -1), "(pair "));
        return;
    }
    if (expected.number == DIGRIBBON_RESULT_TOO_LONG) { /* only the result's length is in the way */
        HOLD(status == LUA_OK || status == LUA_ERRMEM);
        return;
    }
    HOLD((status == LUA_OK) == (expected.number == 0));
    HOLD(state == NULL || memcmp(state, status == LUA_OK ? &next : &from, sizeof from) == 0);
    if (status != LUA_OK) {
        check_refusal(lua, is_writing, function == RANGE, function == TRAY ? run.place : 0);
    } else if (function == PACKSIZE) {
        HOLD((uint64_t)lua_tointeger(lua, first) == expected.words[0]);
    } else if (function == UNPACK) {
        check_results(lua, first);
    } else if (function >= RANGE) {
        check_words(lua, first, function == RANGE ? 2 : function == DATE ? 3 : 1);
    } else {
        check_record(lua, first);
        HOLD(function != WRITER || ((uint64_t)lua_tointeger(lua, first + 1) == expected.words[4] &&
                                    (uint64_t)lua_tointeger(lua, first + 2) == expected.words[5]));
    }
}

int LLVMFuzzerInitialize(int *argc, char ***argv)
{
    (void)argc;
    (void)argv;
    memset(long_text, 'A', sizeof long_text);
    lua = lua_newstate(allocate, NULL);
    HOLD(lua != NULL);
    luaL_requiref(lua, "digribbon", luaopen_digribbon, 0);
    module = luaL_ref(lua, LUA_REGISTRYINDEX);
    lua_gc(lua, LUA_GCCOLLECT);
    memory_at_start = memory.used;
    return 0;
}

int LLVMFuzzerTestOneInput(const uint8_t *input, size_t size)
{
    enum { FUNCTION, ENVIRONMENT, STATE, LENGTH, HEAD };
    /* The default; rounding down, up, to zero; subnormal numbers as zeros; all traps; some of these. */
    static const unsigned environments[] = {0x1F80, 0x3F80, 0x5F80, 0x7F80, 0x9FC0, 0x0000, 0x6000, 0xBFC0};
    static const uint64_t limits[] = {1, 2, 4, 8, 16};
    static const uint64_t lengths[] = {0, 1, 15, INT64_MAX - 30, INT64_MAX};
    Slice format, rest;
    State from;
    const State *state;
    int function, arguments, status = LUA_ERRMEM;
    unsigned environment;
    if (size < HEAD)
        return 0;
    function = input[FUNCTION] % FUNCTIONS;
    environment = environments[input[ENVIRONMENT] % 8];
    from = (State){input[STATE] % 2, limits[input[STATE] / 2 % 5], lengths[input[STATE] / 10 % 5]};
    if (function != WRITER)
        from = (State){0, 1, 0};
    format = (Slice){input + HEAD, input[LENGTH] < size - HEAD ? input[LENGTH] : size - HEAD};
    rest = (Slice){format.start + format.length, size - HEAD - format.length};
    prepare(function, from, (int8_t)input[STATE], format, rest);
    arguments = lua_gettop(lua);
    state = function == WRITER ? lua_touserdata(lua, 2) : NULL;
    for (long blocks = 0; blocks < TRIES && status == LUA_ERRMEM; blocks++) {
        lua_settop(lua, arguments);
        status = call(blocks, environment);
        HOLD(status != LUA_ERRMEM || state == NULL || memcmp(state, &from, sizeof from) == 0);
    }
    if (status == LUA_ERRMEM) {
        lua_settop(lua, arguments);
        status = call(-1, environment);
    }
    check(function, status, arguments + 1, state, from);
    lua_settop(lua, 0);
    lua_gc(lua, LUA_GCCOLLECT);
    HOLD(memory.used < memory_at_start + SLACK);
    return 0;
}
