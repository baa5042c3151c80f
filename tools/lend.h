/* Memory that is lent to a call: each range fills a block of its own, on the heap or against a page that nobody may touch, and buffers have each
 * size around the exact one. */
#ifndef LEND_H
#define LEND_H

#include <stdint.h>
#include <stdio.h>
#include <stdlib.h>
#include <string.h>
#include <sys/mman.h>

enum { PAGE = 4096, ROOM = 5 * PAGE, FILL = 0xa5 };
enum place { ON_THE_HEAP, AFTER_A_WALL, BEFORE_A_WALL, PLACES };
enum role { FIRST, SECOND, THIRD, BUFFER, ROLES };

/* The one to three ranges that a call only reads. */
struct ranges {
    const void *first, *second, *third;
    size_t first_size, second_size, third_size;
};

/* A function on such ranges and a buffer of so many bytes. */
typedef int64_t call(struct ranges read, void *out, size_t size);

static enum place place;
static uint8_t *rooms[ROLES];
static unsigned long passed, failed;

/* What a buffer holds before a call, and what one with room for all holds after it. */
static _Alignas(uint64_t) uint8_t before[ROOM], after[ROOM];

/* Makes for each role ROOM bytes between two pages that nobody may touch. */
static void make_rooms(void)
{
    for (int role = 0; role < ROLES; role++) {
        uint8_t *pages = mmap(NULL, ROOM + 2 * PAGE, PROT_NONE, MAP_PRIVATE | MAP_ANONYMOUS, -1, 0);
        if (pages == MAP_FAILED || mprotect(pages + PAGE, ROOM, PROT_READ | PROT_WRITE) != 0)
            exit(2);
        rooms[role] = pages + PAGE;
    }
}

/* A block of this size that holds these bytes. */
static void *lend(enum role role, const void *bytes, size_t size)
{
    uint8_t *block = place == ON_THE_HEAP ? malloc(size) : place == AFTER_A_WALL ? rooms[role] : rooms[role] + ROOM - size;
    if (size > 0)
        memcpy(block, bytes, size);
    return block;
}

/* Takes a block back, and answers whether it holds these bytes. */
static int returned(void *block, const void *bytes, size_t size)
{
    int same = size == 0 || memcmp(block, bytes, size) == 0;
    if (place == ON_THE_HEAP)
        free(block);
    return same;
}

static void count(int good, const char *what)
{
    *(good ? &passed : &failed) += 1;
    if (!good)
        printf("%s is wrong in check %lu\n", what, passed + failed);
}

/* Calls with room for all: the answer is in question for every other size. */
static int64_t call_with_room(call *function, struct ranges read)
{
    memcpy(after, before, ROOM);
    return function(read, after, ROOM);
}

/* Counts whether a call with a buffer of this size does what the one with room did, or is refused with 9 where the size is below the exact one,
 * and whether it leaves what it only reads. The content of a buffer, 11, is looked at after its size. */
static void check_size(const char *what, call *function, struct ranges read, size_t size, size_t exact, int64_t answer)
{
    int64_t wanted = (answer >= 0 || answer == -11) && size < exact ? -9 : answer;
    void *first = lend(FIRST, read.first, read.first_size), *second = lend(SECOND, read.second, read.second_size);
    void *third = lend(THIRD, read.third, read.third_size), *out = lend(BUFFER, before, size);
    struct ranges lent = { first, second, third, read.first_size, read.second_size, read.third_size };
    int good = function(lent, out, size) == wanted;
    good &= returned(first, read.first, read.first_size);
    good &= returned(second, read.second, read.second_size);
    good &= returned(third, read.third, read.third_size);
    good &= returned(out, wanted < 0 ? before : after, size);
    count(good, what);
}

/* Counts whether the call with room left what it held from the exact size on. */
static void check_rest(const char *what, size_t exact)
{
    count(memcmp(after + exact, before + exact, ROOM - exact) == 0, what);
}

/* Both for an empty buffer, and for those from two elements too few to two too many. */
static void check_sizes(const char *what, call *function, struct ranges read, size_t element, size_t exact, int64_t answer)
{
    size_t spare = 2 * element;
    check_rest(what, exact);
    check_size(what, function, read, 0, exact, answer);
    for (size_t size = exact < spare ? 0 : exact - spare; size <= exact + spare; size += element)
        check_size(what, function, read, size, exact, answer);
}

#endif
