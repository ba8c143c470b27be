/* A test in ten lines: a client and a server, each order of their turns. */
#include "sel4sim.h"
#include <assert.h>

static void server(void *with) {
    seL4_Word badge;
    (void)with;
    for (seL4_MessageInfo_t info = seL4_Recv(1, &badge, 2);; info = seL4_ReplyRecv(1, info, &badge, 2))
        seL4_SetMR(0, seL4_GetMR(0) + badge);
}

static void client(void *with) {
    seL4_SetMR(0, 16);
    seL4_Call(1, seL4_MessageInfo_new(7, 0, 0, 1));
    *(seL4_Word *)with = seL4_GetMR(0);
}

static void test(uint64_t seed) {
    seL4_Word answer = 0;
    sel4sim_boot("cores 1\ncnode 2\ncnode 2\nendpoint\nreply\ncontext 0\ncontext 0\n"
                 "thread 10 255 c1 62 0 run s1\nthread 20 255 c2 62 0 run s2\n"
                 "slot c1 1 e1 wp 42\nslot c2 1 e1 r 0\nslot c2 2 r1\n");
    sel4sim_thread(1, client, &answer);
    sel4sim_thread(2, server, NULL);
    sel4sim_serves(2);
    assert(sel4sim_run(seed) == SEL4SIM_DONE);
    assert(answer == 58 && !sel4sim_stuck() && sel4sim_says("t2 waits e1.recv"));
}

int main(void) {
    struct sel4sim_search all = sel4sim_explore(test, 100);
    printf("%lu orders%s%s\n", all.runs, all.whole ? ", all of them" : "", all.failed ? ", the last fails" : "");
    return all.failed || !all.whole;
}
