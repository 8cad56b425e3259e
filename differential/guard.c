/* The guard's library from C, through its header: the record's layout, each row on both sides, and that a call writes
 * the record and no byte beside it. Prints what went wrong, and then its status is 1. */
#include "../include/ffw_guard.h"

#include <stddef.h>
#include <stdio.h>
#include <string.h>

static int failures = 0;

static void expect(int holds, const char *what) {
    if (!holds) {
        printf("guard.c: not so: %s\n", what);
        failures++;
    }
}

/* A record with bytes around it. */
struct lent {
    unsigned char before[16];
    struct ffw_guard guard;
    unsigned char after[16];
};

static struct lent lend(struct ffw_guard guard) {
    struct lent lent;
    memset(&lent, 0xa5, sizeof lent);
    lent.guard = guard;
    return lent;
}

/* One call: what it answers, and the record afterwards; every byte beside it is as it was. */
static void one(struct ffw_guard g, uint32_t source, uint32_t target, uint64_t row, uint32_t last_source,
                uint32_t last_target, uint32_t used, const char *what) {
    struct lent lent = lend(g);
    struct lent wanted = lend(g);
    uint64_t told = ffw_guard_sign(&lent.guard, (struct ffw_height){source}, (struct ffw_height){target});
    wanted.guard.source.value = last_source;
    wanted.guard.target.value = last_target;
    wanted.guard.used = used;
    expect(told == row, what);
    expect(memcmp(&lent, &wanted, sizeof lent) == 0, what);
}

int main(void) {
    const struct ffw_guard fresh = ffw_guard_fresh();
    const struct ffw_guard last = {{3}, {5}, 1};
    const struct ffw_guard odd = {{3}, {5}, 256};
    const struct ffw_guard unused = {{3}, {5}, 0};
    const uint32_t top = UINT32_MAX;
    struct ffw_guard handed_on = ffw_guard_fresh();

    expect(sizeof(struct ffw_guard) == 12, "a record has 12 bytes");
    expect(offsetof(struct ffw_guard, target) == 4, "the target stands at 4");
    expect(offsetof(struct ffw_guard, used) == 8, "used stands at 8");
    expect(fresh.source.value == 0 && fresh.target.value == 0 && fresh.used == 0, "a fresh record is all zeros");

    one(fresh, 0, 1, 0, 0, 1, 1, "a fresh record signs 0 to 1");
    one(fresh, 7, 9, 0, 7, 9, 1, "a fresh record signs 7 to 9");
    one(fresh, top - 1, top, 0, top - 1, top, 1, "a fresh record signs the highest");
    one(fresh, 0, 0, 65, 0, 0, 0, "a fresh record refuses 0 to 0");
    one(fresh, 4, 3, 65, 0, 0, 0, "a fresh record refuses 4 to 3");
    one(last, 7, 7, 65, 3, 5, 1, "65 where the heights are equal");
    one(last, 6, 5, 65, 3, 5, 1, "65 before 66");
    one(last, 2, 1, 65, 3, 5, 1, "65 before 66 and 67");
    one(last, 3, 5, 66, 3, 5, 1, "66 where the target is the last");
    one(last, 4, 5, 66, 3, 5, 1, "66 whatever the source");
    one(last, 2, 4, 66, 3, 5, 1, "66 before 67");
    one(last, 2, 6, 67, 3, 5, 1, "67 where the source is below the last");
    one(last, 0, top, 67, 3, 5, 1, "67 however high the target is");
    one(last, 3, 6, 0, 3, 6, 1, "the same source again");
    one(last, 5, 6, 0, 5, 6, 1, "from the last target on");
    one(unused, 0, 1, 0, 0, 1, 1, "a record that has signed nothing signs 0 to 1, whatever its heights");
    one(unused, 3, 3, 65, 3, 5, 0, "a record that has signed nothing meets 65");
    one(odd, 3, 5, 66, 3, 5, 256, "any number but 0 counts as used");
    one(odd, 3, 6, 0, 3, 6, 1, "a signing leaves 1");

    /* one record, handed on as the last call left it */
    for (uint32_t height = 0; height < 100000; height++) {
        struct ffw_height source = {height}, target = {height + 1};
        expect(ffw_guard_sign(&handed_on, source, target) == 0, "each next height is signed");
        expect(ffw_guard_sign(&handed_on, source, target) == 66, "the same heights are not signed again");
    }
    expect(handed_on.source.value == 99999 && handed_on.target.value == 100000, "the last heights are remembered");

    return failures == 0 ? 0 : 1;
}
