/* Microkit's system and handler loop over sel4sim. Not proved. */
#include "microkit_sim.h"

#include <stdarg.h>
#include <stdio.h>
#include <stdlib.h>
#include <string.h>

enum { PDS = 62, SLOTS = 8, READY = 5, CHANNEL_MASK = 0x3f, MONITOR_CONTEXTS = 2, MONITOR_NOTIFICATIONS = 128 };

struct channel {
    int from, to;
    microkit_channel of_from, of_to;
    bool is_protected;
};

/* A protection domain, and the signal that goes out with its next receive. */
struct domain {
    struct microkit_pd pd;
    bool has_signal;
    seL4_CPtr signal;
};

static struct domain domains[PDS + 2];
static struct channel channels[2 * PDS * PDS];
static int domain_count, channel_count;
static char boot[1 << 18];
static size_t boot_length;

static void say(const char *form, ...) {
    va_list all;
    va_start(all, form);
    int n = vsnprintf(boot + boot_length, sizeof boot - boot_length, form, all);
    va_end(all);
    if (n < 0 || boot_length + (size_t)n >= sizeof boot) {
        fprintf(stderr, "microkit_sim: the system is too large\n");
        abort();
    }
    boot_length += (size_t)n;
}

void microkit_begin(void) {
    domain_count = channel_count = 0;
    memset(domains, 0, sizeof domains);
}

int microkit_add(struct microkit_pd pd) {
    if (domain_count == PDS) {
        fprintf(stderr, "microkit_sim: at most %d protection domains\n", PDS);
        abort();
    }
    domains[++domain_count].pd = pd;
    return domain_count;
}

static void add_channel(int from, microkit_channel of_from, int to, microkit_channel of_to, bool is_protected) {
    if (from < 1 || from > domain_count || to < 1 || to > domain_count || of_from > MICROKIT_MAX_CHANNEL_ID ||
        of_to > MICROKIT_MAX_CHANNEL_ID || channel_count == (int)(sizeof channels / sizeof *channels)) {
        fprintf(stderr, "microkit_sim: no such protection domain or channel\n");
        abort();
    }
    channels[channel_count++] = (struct channel){from, to, of_from, of_to, is_protected};
}

void microkit_connect(int a, microkit_channel of_a, int b, microkit_channel of_b) {
    add_channel(a, of_a, b, of_b, false);
    add_channel(b, of_b, a, of_a, false);
}

void microkit_protect(int caller, microkit_channel of_caller, int callee, microkit_channel of_callee) {
    add_channel(caller, of_caller, callee, of_callee, true);
    add_channel(callee, of_callee, caller, of_caller, false);
}

static struct domain *mine(void) {
    return &domains[sel4sim_current()];
}

void microkit_deferred_notify(microkit_channel ch) {
    mine()->has_signal = true;
    mine()->signal = MICROKIT_OUTPUT_NOTIFICATION_CAP + ch;
}

static void notify_all(struct domain *d, seL4_Word badge) {
    for (microkit_channel ch = 0; badge; ch++, badge >>= 1)
        if (badge & 1)
            d->pd.notified(ch);
}

/* The loop of libmicrokit. */
static void run_domain(void *with) {
    struct domain *d = with;
    bool has_reply = false;
    seL4_Word badge = 0;
    seL4_MessageInfo_t info, reply = seL4_MessageInfo_new(0, 0, 0, 0);
    d->pd.init();
    if (d->pd.is_passive) {
        d->has_signal = true;
        d->signal = READY;
    }
    for (;;) {
        if (has_reply) {
            info = seL4_ReplyRecv(MICROKIT_INPUT_CAP, reply, &badge, MICROKIT_REPLY_CAP);
        } else if (d->has_signal) {
            d->has_signal = false;
            info = seL4_NBSendRecv(d->signal, seL4_MessageInfo_new(0, 0, 0, 0), MICROKIT_INPUT_CAP, &badge, MICROKIT_REPLY_CAP);
        } else {
            info = seL4_Recv(MICROKIT_INPUT_CAP, &badge, MICROKIT_REPLY_CAP);
        }
        has_reply = badge >> 63;
        if (has_reply)
            reply = d->pd.protected_((microkit_channel)(badge & CHANNEL_MASK), info);
        else
            notify_all(d, badge);
    }
}

/* Takes the context of each passive protection domain once that is ready, and binds it to the
 * notification of that, as Microkit's monitor does. */
static void monitor(void *with) {
    seL4_Word badge, waiting = 0;
    (void)with;
    for (int n = 1; n <= domain_count; n++)
        waiting |= (seL4_Word)domains[n].pd.is_passive << n;
    while (waiting) {
        seL4_Wait(1, &badge);
        for (int n = 1; n <= domain_count; n++)
            if (badge >> n & waiting >> n & 1 && seL4_SchedContext_Unbind(MONITOR_CONTEXTS + (seL4_CPtr)n) == seL4_NoError &&
                seL4_SchedContext_Bind(MONITOR_CONTEXTS + (seL4_CPtr)n, MONITOR_NOTIFICATIONS + (seL4_CPtr)n) == seL4_NoError)
                waiting &= ~((seL4_Word)1 << n);
    }
}

static int count_passive(void) {
    int n = 0;
    for (int at = 1; at <= domain_count; at++)
        n += domains[at].pd.is_passive;
    return n;
}

static void say_objects(int threads) {
    for (int n = 0; n < threads; n++)
        say("cnode %d\n", SLOTS);
    for (int n = 0; n < domain_count; n++)
        say("endpoint\n");
    for (int n = 0; n < threads; n++)
        say("notification\n");
    for (int n = 0; n < domain_count; n++)
        say("reply\n");
    for (int n = 0; n < threads; n++)
        say("context 0\n");
    for (int n = 1; n <= threads; n++)
        say("thread %d 255 c%d %d 0 run s%d\n", n > domain_count ? 255 : domains[n].pd.priority, n, 64 - SLOTS, n);
}

static void say_slots(int n, int threads) {
    say("slot c%d %d e%d r 0\nslot c%d %d r%d\n", n, MICROKIT_INPUT_CAP, n, n, MICROKIT_REPLY_CAP, n);
    if (domains[n].pd.is_passive) {
        say("slot c%d %d n%d w %llu\n", n, READY, threads, 1ull << n);
        say("slot c%d %d s%d\n", threads, MONITOR_CONTEXTS + n, n);
        say("slot c%d %d n%d w 0\n", threads, MONITOR_NOTIFICATIONS + n, n);
    }
}

static void say_channel(const struct channel *c) {
    say("slot c%d %u n%d w %llu\n", c->from, MICROKIT_OUTPUT_NOTIFICATION_CAP + c->of_from, c->to, 1ull << c->of_to);
    if (c->is_protected)
        say("slot c%d %u e%d wp %llu\n", c->from, MICROKIT_ENDPOINT_CAP + c->of_from, c->to, 1ull << 63 | c->of_to);
}

void microkit_boot(void) {
    int threads = domain_count + (count_passive() > 0);
    boot_length = 0;
    for (int n = 1; n <= domain_count; n++)
        say("#@ t%d %s\n", n, domains[n].pd.name);
    say("cores 1\n");
    say_objects(threads);
    for (int n = 1; n <= domain_count; n++)
        say_slots(n, threads);
    for (int at = 0; at < channel_count; at++)
        say_channel(&channels[at]);
    if (threads > domain_count)
        say("slot c%d 1 n%d r 0\n", threads, threads);
    for (int n = 1; n <= domain_count; n++)
        say("tie t%d n%d\n", n, n);
    sel4sim_boot(boot);
    for (int n = 1; n <= domain_count; n++) {
        domains[n].has_signal = false;
        sel4sim_thread(n, run_domain, &domains[n]);
        sel4sim_serves(n);
    }
    if (threads > domain_count)
        sel4sim_thread(threads, monitor, NULL);
}
