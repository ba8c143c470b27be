/* A server with room for two words, and a client that sends three: no test sees that the third is
 * written behind the room, but AddressSanitizer and valgrind do, in the server's own coroutine. */
#include "sel4sim.h"
#include <assert.h>
#include <stdlib.h>

enum { WORDS = 2, SENT = 3 };

static void server(void *with) {
    seL4_Word *kept = malloc(WORDS * sizeof *kept), badge;
    (void)with;
    assert(kept);
    for (int n = 0; n < SENT; n++) {
        seL4_Recv(1, &badge, 2);
        kept[n] = seL4_GetMR(0) + badge;
    }
    free(kept);
}

static void client(void *with) {
    (void)with;
    for (int n = 0; n < SENT; n++) {
        seL4_SetMR(0, 16);
        seL4_Send(1, seL4_MessageInfo_new(7, 0, 0, 1));
    }
}

static void test(uint64_t seed) {
    sel4sim_boot("cores 1\ncnode 2\ncnode 2\nendpoint\nreply\ncontext 0\ncontext 0\n"
                 "thread 10 255 c1 62 0 run s1\nthread 20 255 c2 62 0 run s2\n"
                 "slot c1 1 e1 wp 42\nslot c2 1 e1 r 0\nslot c2 2 r1\n");
    sel4sim_thread(1, client, NULL);
    sel4sim_thread(2, server, NULL);
    assert(sel4sim_run(seed) == SEL4SIM_DONE);
}

int main(void) {
    return sel4sim_seeds(test, 1) != 0;
}
