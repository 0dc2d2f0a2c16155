/* The premises of the walk's promise from C: which entry of a list breaks them first, and by what.
 * cc -std=c11 -Wall -Wextra -Iinclude examples/premises.c LIBDIR/libbounds.a -o premises && ./premises */
#include "bounds.h"
#include <inttypes.h>
#include <math.h>
#include <stdio.h>
#include <string.h>

static int wrong;

static void answer(const char *what, bounds_premises got, uint32_t refusal, uint32_t fault, uint32_t place) {
    int same = got.refusal == refusal && got.fault == fault && got.place == place;
    printf("%-44s refusal %" PRIu32 ", fault %2" PRIu32 ", entry %" PRIu32 "%s\n", what, got.refusal, got.fault,
           got.place, same ? "" : "  WRONG");
    wrong |= !same;
}

static void put_entry(uint32_t *words, uint32_t mark, const float box[6]) {
    words[0] = mark; /* 0: absent */
    memcpy(words + 1, box, 6 * sizeof *box);
}

int main(void) {
    const float unit[6] = {0, 0, 0, 1, 1, 1}, huge[6] = {0, 0, 0, 1, 0x1.000002p100f, 1};
    const float turned[6] = {0, 0, 1, 1, 1, 0.5f}, infinite[6] = {-INFINITY, 0, 0, 1, 1, 1};
    const float nought[6] = {0}, near[6] = {0, 0x1p-130f, 0, 0, 0x1p-130f, 0};
    uint32_t list[3 * 7];

    put_entry(list, 1, unit);
    put_entry(list + 7, 0, infinite);
    put_entry(list + 14, 1, unit);
    answer("held; an absent entry does not count", bounds_ordinary(3, list, 21), 0, 0, 0);
    answer("no entry: held", bounds_ordinary(0, list, 0), 0, 0, 0);
    put_entry(list + 14, 1, huge);
    answer("max y above 2^100", bounds_ordinary(3, list, 21), 0, 5, 2);
    put_entry(list + 7, 1, turned);
    answer("min z above max z, in the entry before", bounds_ordinary(3, list, 21), 0, 9, 1);
    put_entry(list, 1, infinite);
    answer("min x infinite, in the first", bounds_ordinary(3, list, 21), 0, 1, 0);
    put_entry(list, 1, nought);
    put_entry(list + 7, 1, near);
    answer("half extent on y below 2^-100", bounds_ordinary(2, list, 14), 0, 11, 0);
    answer("a word short: refused", bounds_ordinary(3, list, 20), 2, 0, 0);
    answer("32,768 entries: refused", bounds_ordinary(32768, list, 21), 1, 0, 0);
    return wrong;
}
