/* microkit_sim.h: the system of protection domains that a test runs. */
#ifndef MICROKIT_SIM_H
#define MICROKIT_SIM_H

#include "microkit.h"
#include "sel4sim.h"

/* The handlers of a protection domain that was compiled with -DMICROKIT_PD=NAME. */
#define MICROKIT_DECLARE(name)               \
    void name##_init(void);                  \
    void name##_notified(microkit_channel);  \
    microkit_msginfo name##_protected(microkit_channel, microkit_msginfo)

struct microkit_pd {
    const char *name;
    int priority;
    bool is_passive;
    void (*init)(void);
    void (*notified)(microkit_channel);
    microkit_msginfo (*protected_)(microkit_channel, microkit_msginfo); /* NULL: has none */
};

/* Begins a system. */
void microkit_begin(void);

/* Adds a protection domain, at most 62, and returns its number: 1, 2, .. in order. */
int microkit_add(struct microkit_pd pd);

/* Makes a channel: `a` has it by one number, `b` by the other. Each may notify the other. */
void microkit_connect(int a, microkit_channel of_a, int b, microkit_channel of_b);

/* The same, and `caller` may call the protected procedure of `callee`. */
void microkit_protect(int caller, microkit_channel of_caller, int callee, microkit_channel of_callee);

/* Boots the system: sel4sim_run may follow. The thread of protection domain n is thread n. Where
 * some are passive, one thread more takes their contexts when their `init` has returned. */
void microkit_boot(void);

#endif
