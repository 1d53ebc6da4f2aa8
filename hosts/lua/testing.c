/* The module "testing" for test.lua: the float environment, and memory that can't be had. */
#include <lauxlib.h>
#include <lua.h>
#include <xmmintrin.h>

/* environment([mxcsr]): the register's bits, and the new ones where they are given */
static int environment(lua_State *L)
{
    unsigned before = _mm_getcsr();
    if (!lua_isnoneornil(L, 1))
        _mm_setcsr((unsigned)luaL_checkinteger(L, 1));
    lua_pushinteger(L, before);
    return 1;
}

/* Lua's allocator, how many more blocks it gives, and the longest. */
static struct {
    lua_Alloc allocate;
    void *data;
    lua_Integer left, longest;
} memory;

static void *allocate(void *data, void *block, size_t size, size_t new_size)
{
    (void)data;
    if (new_size > 0 && (block == NULL || new_size > size))
        if (new_size > (size_t)memory.longest || memory.left-- <= 0)
            return NULL;
    return memory.allocate(memory.data, block, size, new_size);
}

/* blocks(n, longest): from now on only n more blocks can be had, of so many bytes at most; blocks(): all, as before */
static int blocks(lua_State *L)
{
    if (memory.allocate == NULL)
        memory.allocate = lua_getallocf(L, &memory.data);
    if (lua_isnoneornil(L, 1)) {
        lua_setallocf(L, memory.allocate, memory.data);
    } else {
        memory.left = luaL_checkinteger(L, 1);
        memory.longest = luaL_checkinteger(L, 2);
        lua_setallocf(L, allocate, NULL);
    }
    return 0;
}

static const luaL_Reg functions[] = {{"environment", environment}, {"blocks", blocks}, {NULL, NULL}};

int luaopen_testing(lua_State *L)
{
    luaL_newlib(L, functions);
    return 1;
}
