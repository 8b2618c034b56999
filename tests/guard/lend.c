#define _DEFAULT_SOURCE
#include "lend.h"

#include <stdio.h>
#include <stdlib.h>
#include <string.h>
#include <sys/mman.h>

enum { PATTERN = 0xa5 };

/* Lends a little more than the library takes, so that its limits are passed. */
static const struct {
    const char *name;
    size_t size;
    size_t max;
    bool constant;
} roles[ROLES] = {
    [RECORD] = {"record", 1, RECORD_MAX, true},
    [RESULTS] = {"results", 1, RESULTS_MAX, true},
    [PARAMETERS] = {"parameters", 4, PARAMETERS_MAX, true},
    [STILL_STACK] = {"stack (const)", 4, ICODE_STACK_MAX + 8, true},
    [CODE] = {"code", 1, ICODE_CODE_MAX + 8, true},
    [RUN_FILE] = {"run file", 1, RUN_FILE_MAX, true},
    [RECORDS] = {"records", 1, RECORDS_MAX, true},
    [ALL_RESULTS] = {"results of all", 1, ALL_RESULTS_MAX, true},
    [DIRECTORY] = {"directory", 4, DIRECTORY_MAX, true},
    [STILL_COPY] = {"copy (const)", 1, COPY_MAX, true},
    [SPAN] = {"span", 4, ICODE_SPAN_WORDS + 8, false},
    [OUT] = {"out", 1, ICODE_MEND_MAX + 100, false},
    [PLACES] = {"places", 4, ICODE_PLACES_MAX + 8, false},
    [COUNTS] = {"counts", 4, ICODE_COUNT_WORDS + 8, false},
    [WORKSPACE] = {"workspace", 2, ICODE_WORKSPACE_MAX + 64, false},
    [MEMORY] = {"memory", 4, ICODE_MEMORY_MAX + 8, false},
    [STACK] = {"stack", 4, ICODE_STACK_MAX + 8, false},
    [STATE] = {"state", 4, STATE_MAX, false},
    [OUTCOME] = {"outcome", 4, ICODE_SET_OUTCOME_WORDS + 8, false},
    [DECODED] = {"out", 4, ICODE_DECODED_WORDS + 8, false},
    [COPY] = {"copy", 1, COPY_MAX, false},
};

static uint8_t *rooms[ROLES][LAYOUTS]; /* each of room_bytes, between two guard pages */
static uint8_t pattern[PAGE];

static size_t room_bytes(enum role role)
{
    return (roles[role].max * roles[role].size + PAGE - 1) / PAGE * PAGE;
}

static uint8_t *map_pages(size_t bytes)
{
    uint8_t *at = mmap(NULL, bytes, PROT_NONE, MAP_PRIVATE | MAP_ANONYMOUS, -1, 0);
    if (at == MAP_FAILED) {
        perror("guard: mmap");
        exit(2);
    }
    return at;
}

static void protect(uint8_t *at, size_t bytes, int how)
{
    if (mprotect(at, bytes, how) != 0) {
        perror("guard: mprotect");
        exit(2);
    }
}

uint8_t *map_behind_guard(size_t bytes)
{
    uint8_t *at = map_pages(bytes + 2 * PAGE) + PAGE;
    protect(at, bytes, PROT_READ | PROT_WRITE);
    return at;
}

void make_rooms(void)
{
    memset(pattern, PATTERN, sizeof pattern);
    for (int role = 0; role < ROLES; role++)
        for (int layout = 0; layout < LAYOUTS; layout++) {
            rooms[role][layout] = map_behind_guard(room_bytes(role));
            fill(role, layout, pattern, 0);
        }
}

const char *role_name(enum role role)
{
    return roles[role].name;
}

size_t role_size(enum role role)
{
    return roles[role].size;
}

size_t role_max(enum role role)
{
    return roles[role].max;
}

void *lend(enum role role, enum layout layout, size_t len)
{
    return rooms[role][layout] + (layout == FRONT ? 0 : room_bytes(role) - len * roles[role].size);
}

/* Finds what stands between the buffer and the end of its page that is no guard: behind it in front, before it at the back. */
static uint8_t *surroundings(enum role role, enum layout layout, size_t len, size_t *bytes)
{
    size_t used = len * roles[role].size, room = room_bytes(role);
    *bytes = used == room ? 0 : used == 0 ? PAGE : (PAGE - used % PAGE) % PAGE;
    return rooms[role][layout] + (layout == FRONT ? used : room - used - *bytes);
}

void fill(enum role role, enum layout layout, const void *contents, size_t len)
{
    size_t around;
    uint8_t *slack = surroundings(role, layout, len, &around);
    if (roles[role].constant)
        protect(rooms[role][layout], room_bytes(role), PROT_READ | PROT_WRITE);
    memset(slack, PATTERN, around);
    memcpy(lend(role, layout, len), contents, len * roles[role].size);
    if (roles[role].constant)
        protect(rooms[role][layout], room_bytes(role), PROT_READ);
}

bool surroundings_kept(enum role role, enum layout layout, size_t len)
{
    size_t around;
    uint8_t *slack = surroundings(role, layout, len, &around);
    return memcmp(slack, pattern, around) == 0;
}

const char *place_name(const void *address, const char **part)
{
    const uint8_t *at = address;
    for (int role = 0; role < ROLES; role++)
        for (int layout = 0; layout < LAYOUTS; layout++) {
            const uint8_t *room = rooms[role][layout], *end = room + room_bytes(role);
            if (at < room - PAGE || at >= end + PAGE)
                continue;
            *part = at < room ? "the page before" : at >= end ? "the page behind" : "inside";
            return roles[role].name;
        }
    return NULL;
}
