/* A passive file server, a driver that calls it back, and two clients. A reader asks the server,
 * which calls the driver; a second client asks the driver to sync, and the driver then calls the
 * server, whose cache is stale. Where both calls meet, each waits for the other: 1,000 seeds find
 * that. Compiled with -DMENDED the driver says so with its next answer, and calls nobody.
 *
 * files [TRACE]: writes the trace of the first order that fails to a file. */
#include "sel4sim.h"
#include <assert.h>
#include <stdlib.h>
#include <string.h>

enum { READER = 1, SYNCER, FILES, DISK, STARTER };
enum { READ = 1, SYNC, STALE };

static const char boot[] =
    "#@ t1 reader\n#@ t2 syncer\n#@ t3 files\n#@ t4 disk\n#@ t5 starter\n#@ e1 fs\n#@ e2 dev\n"
    "cores 1\n"
    "cnode 3\ncnode 3\ncnode 3\ncnode 3\ncnode 3\n"
    "endpoint\nendpoint\nnotification\nnotification\nnotification\nreply\nreply\n"
    "context 0\ncontext 0\ncontext 0\ncontext 0\ncontext 0\n"
    "thread 10 255 c1 61 0 run s1\nthread 10 255 c2 61 0 run s2\n"
    "thread 50 255 c3 61 0 run s3\nthread 60 255 c4 61 0 run s4\nthread 255 255 c5 61 0 run s5\n"
    "slot c1 1 e1 wp 1\nslot c1 2 n2 r 0\nslot c2 1 e2 wp 2\nslot c2 2 n3 r 0\n"
    "slot c3 1 e1 r 0\nslot c3 2 r1\nslot c3 3 e2 wp 3\nslot c3 4 n1 w 1\n"
    "slot c4 1 e2 r 0\nslot c4 2 r2\nslot c4 3 e1 wp 4\nslot c4 4 n1 w 2\n"
    "slot c5 1 n1 r 0\nslot c5 2 s3\nslot c5 3 s4\nslot c5 4 n2 w 1\nslot c5 5 n3 w 1\n";

static seL4_MessageInfo_t message(seL4_Word label, seL4_Word length) {
    return seL4_MessageInfo_new(label, 0, 0, length);
}

/* Says that it is ready with the same call that waits, and then has no context of its own. */
static seL4_MessageInfo_t begin(seL4_Word *badge) {
    return seL4_NBSendRecv(4, message(0, 0), 1, badge, 2);
}

static void files(void *with) {
    seL4_Word badge, block = 0;
    bool is_cached = false;
    (void)with;
    for (seL4_MessageInfo_t info = begin(&badge);; info = seL4_ReplyRecv(1, message(0, 1), &badge, 2)) {
        if (seL4_MessageInfo_get_label(info) == STALE) {
            is_cached = false;
        } else if (!is_cached) {
            info = seL4_Call(3, message(READ, 0));
            block = seL4_GetMR(0);
            is_cached = seL4_MessageInfo_get_label(info) != STALE;
        }
        seL4_SetMR(0, block);
    }
}

static void disk(void *with) {
    seL4_Word badge, answer = 0;
    (void)with;
    for (seL4_MessageInfo_t info = begin(&badge);; info = seL4_ReplyRecv(1, message(answer, 1), &badge, 2)) {
        answer = 0;
        if (seL4_MessageInfo_get_label(info) == SYNC) {
#ifdef MENDED
            answer = STALE;
#else
            seL4_Call(3, message(STALE, 0));
#endif
        }
        seL4_SetMR(0, 0xb10c);
    }
}

static void reader(void *with) {
    (void)with;
    seL4_Wait(2, NULL);
    seL4_Call(1, message(READ, 0));
    assert(seL4_GetMR(0) == 0xb10c);
}

static void syncer(void *with) {
    (void)with;
    seL4_Wait(2, NULL);
    seL4_Call(1, message(SYNC, 0));
}

/* Takes the contexts of the servers once they wait, and lets the clients begin. */
static void starter(void *with) {
    seL4_Word badge, ready = 0;
    (void)with;
    for (seL4_Word servers = 3; ready != servers; ready |= badge) {
        seL4_Wait(1, &badge);
        for (seL4_CPtr n = 0; n < 2; n++)
            if (badge >> n & 1)
                assert(seL4_SchedContext_Unbind(2 + n) == seL4_NoError);
    }
    seL4_Signal(4);
    seL4_Signal(5);
}

static void test(uint64_t seed) {
    sel4sim_boot(boot);
    sel4sim_thread(READER, reader, NULL);
    sel4sim_thread(SYNCER, syncer, NULL);
    sel4sim_thread(FILES, files, NULL);
    sel4sim_thread(DISK, disk, NULL);
    sel4sim_thread(STARTER, starter, NULL);
    sel4sim_serves(FILES);
    sel4sim_serves(DISK);
    int ended = sel4sim_run(seed);
    if (ended == SEL4SIM_STUCK) {
        printf("seed %llu:", (unsigned long long)seed);
        for (int t = READER; t <= STARTER; t++)
            if (sel4sim_is_stuck(t))
                printf(" t%d", t);
        printf(" stuck\n");
        exit(1);
    }
    assert(ended == SEL4SIM_DONE);
}

int main(int count, char **words) {
    if (count > 1 && !strcmp(words[1], "explore")) {
        struct sel4sim_search all = sel4sim_explore(test, count > 2 ? (unsigned)atoi(words[2]) : 100);
        printf("%lu orders%s%s\n", all.runs, all.whole ? ", all of them" : "", all.failed ? ", the last fails" : "");
        if (all.failed && count > 3 && sel4sim_save(words[3]))
            return 2;
        return all.failed;
    }
    uint64_t seed = sel4sim_seeds(test, 1000);
    if (seed && count > 1 && sel4sim_save(words[1]))
        return 2;
    if (!seed)
        printf("1000 seeds: none fails\n");
    return seed != 0;
}
