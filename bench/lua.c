/* Lua's interpreter. A program is a source text that gives a function of a frame, which is a text
 * too. A hook ends a run after 4,096 instructions; it is set anew for each run. */
#include <lauxlib.h>
#include <lua.h>
#include <lualib.h>

#include "machine.h"

static void end_run(lua_State *lua, lua_Debug *told) {
    (void)told;
    luaL_error(lua, "the budget is used up");
}

static void *load(const char *name, const uint8_t *code, size_t length, size_t lent) {
    lua_State *lua = luaL_newstate();
    (void)lent;
    luaL_requiref(lua, LUA_STRLIBNAME, luaopen_string, 1);
    lua_pop(lua, 1);
    if (luaL_loadbufferx(lua, (const char *)code, length, name, "t") != LUA_OK) return NULL;
    return lua_pcall(lua, 0, 1, 0) == LUA_OK ? lua : NULL;
}

static inline void unload(void *program) { lua_close(program); }

static uint64_t run(void *program, uint8_t *memory, size_t length, uint64_t argument,
                    uint64_t *steps) {
    lua_State *lua = program;
    (void)argument, (void)steps;
    lua_sethook(lua, end_run, LUA_MASKCOUNT, 4096);
    lua_pushvalue(lua, 1);
    lua_pushlstring(lua, (const char *)memory, length);
    if (lua_pcall(lua, 1, 1, 0) != LUA_OK) exit(1);
    uint64_t answer = (uint64_t)lua_tointeger(lua, -1);
    lua_pop(lua, 1);
    return answer;
}
