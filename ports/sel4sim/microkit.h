/* microkit.h for tests: Microkit's API over sel4sim, so that the .c file of a protection domain is
 * linked into a test as it is.
 *
 * Each protection domain is compiled with -DMICROKIT_PD=NAME: its `init`, `notified` and
 * `protected` become NAME_init, NAME_notified and NAME_protected (microkit_sim.h); NAME is its
 * microkit_name. What is declared here and not simulated (interrupts, faults, x86 ports) does not
 * link. */
#ifndef SEL4SIM_MICROKIT_H
#define SEL4SIM_MICROKIT_H

#include <sel4/sel4.h>

typedef unsigned int microkit_channel;
typedef unsigned int microkit_child;
typedef seL4_MessageInfo_t microkit_msginfo;

#define MICROKIT_MAX_CHANNELS 62
#define MICROKIT_MAX_CHANNEL_ID (MICROKIT_MAX_CHANNELS - 1)
#define MICROKIT_PD_NAME_LENGTH 64

/* Where a protection domain has its capabilities, as in libmicrokit. */
enum {
    MICROKIT_INPUT_CAP = 1,
    MICROKIT_REPLY_CAP = 4,
    MICROKIT_OUTPUT_NOTIFICATION_CAP = 10,
    MICROKIT_ENDPOINT_CAP = 74
};

#ifdef MICROKIT_PD
#define MICROKIT_JOIN_(pd, name) pd##_##name
#define MICROKIT_JOIN(pd, name) MICROKIT_JOIN_(pd, name)
#define init MICROKIT_JOIN(MICROKIT_PD, init)
#define notified MICROKIT_JOIN(MICROKIT_PD, notified)
#define protected MICROKIT_JOIN(MICROKIT_PD, protected)
#define fault MICROKIT_JOIN(MICROKIT_PD, fault)
#define MICROKIT_TEXT_(pd) #pd
#define MICROKIT_TEXT(pd) MICROKIT_TEXT_(pd)
#define microkit_name MICROKIT_TEXT(MICROKIT_PD)
void init(void);
void notified(microkit_channel ch);
microkit_msginfo protected(microkit_channel ch, microkit_msginfo msginfo);
/* Nothing calls it, as no fault is simulated. */
seL4_Bool fault(microkit_child child, microkit_msginfo msginfo, microkit_msginfo *reply);
#endif

static inline microkit_msginfo microkit_msginfo_new(seL4_Word label, seL4_Uint16 count) {
    return seL4_MessageInfo_new(label, 0, 0, count);
}
static inline seL4_Word microkit_msginfo_get_label(microkit_msginfo msginfo) {
    return seL4_MessageInfo_get_label(msginfo);
}
static inline seL4_Word microkit_msginfo_get_count(microkit_msginfo msginfo) {
    return seL4_MessageInfo_get_length(msginfo);
}
static inline void microkit_mr_set(seL4_Uint8 mr, seL4_Word value) {
    seL4_SetMR(mr, value);
}
static inline seL4_Word microkit_mr_get(seL4_Uint8 mr) {
    return seL4_GetMR(mr);
}
static inline void microkit_notify(microkit_channel ch) {
    seL4_Signal(MICROKIT_OUTPUT_NOTIFICATION_CAP + ch);
}
static inline microkit_msginfo microkit_ppcall(microkit_channel ch, microkit_msginfo msginfo) {
    return seL4_Call(MICROKIT_ENDPOINT_CAP + ch, msginfo);
}
static inline void microkit_dbg_putc(int c) {
    seL4_DebugPutChar((char)c);
}
static inline void microkit_dbg_puts(const char *text) {
    while (*text)
        seL4_DebugPutChar(*text++);
}
static inline void microkit_dbg_put32(seL4_Uint32 number) {
    char digits[11], *at = digits + sizeof digits - 1;
    for (*at = 0; number || !*at; number /= 10)
        *--at = (char)('0' + number % 10);
    microkit_dbg_puts(at);
}
static inline void microkit_dbg_put8(seL4_Uint8 number) {
    microkit_dbg_put32(number);
}

/* The signal goes out with the receive that follows, in one call of the kernel. */
void microkit_deferred_notify(microkit_channel ch);

/* Not simulated: what uses these does not link. */
void microkit_irq_ack(microkit_channel ch);
void microkit_deferred_irq_ack(microkit_channel ch);
void microkit_pd_restart(microkit_child pd, seL4_Word entry_point);
void microkit_pd_stop(microkit_child pd);

#endif
