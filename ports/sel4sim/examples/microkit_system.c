/* The system of counter.c, asker.c and watcher.c: the counter is passive. */
#include "microkit_sim.h"
#include <assert.h>

MICROKIT_DECLARE(counter);
MICROKIT_DECLARE(asker);
MICROKIT_DECLARE(watcher);
extern seL4_Word asker_seen, watcher_heard;

static void test(uint64_t seed) {
    microkit_begin();
    int counter = microkit_add((struct microkit_pd){"counter", 200, true, counter_init, counter_notified, counter_protected});
    int asker = microkit_add((struct microkit_pd){"asker", 10, false, asker_init, asker_notified, NULL});
    int watcher = microkit_add((struct microkit_pd){"watcher", 10, false, watcher_init, watcher_notified, NULL});
    microkit_protect(asker, 0, counter, 0);
    microkit_connect(counter, 1, watcher, 1);
    microkit_boot();
    sel4sim_by_priority(true);
    int ended = sel4sim_run(seed);
    assert(ended == SEL4SIM_DONE);
    assert(asker_seen == 10 && watcher_heard == 1);
}

int main(void) {
    uint64_t seed = sel4sim_seeds(test, 200);
    if (seed) {
        printf("seed %llu fails\n", (unsigned long long)seed);
        fputs(sel4sim_trace(NULL), stderr);
    } else {
        printf("200 seeds: none fails\n");
    }
    return seed != 0;
}
