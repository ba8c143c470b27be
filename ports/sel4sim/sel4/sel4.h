/* sel4/sel4.h for tests: the calls of seL4 (MCS) that sel4sim simulates, under libsel4's names.
 *
 * A call that is not here is not simulated: C code that needs it does not link, and the linker
 * names it. What each call does is what the proved kernel answers (docs/MODEL.md says where that
 * is a choice of its own); this layer is tested, not proved. */
#ifndef SEL4SIM_SEL4_H
#define SEL4SIM_SEL4_H

#include <stdbool.h>
#include <stddef.h>
#include <stdint.h>

typedef uint8_t seL4_Uint8;
typedef uint16_t seL4_Uint16;
typedef uint32_t seL4_Uint32;
typedef uint64_t seL4_Uint64;
typedef int8_t seL4_Bool;
typedef unsigned long seL4_Word;
typedef seL4_Word seL4_CPtr;
typedef seL4_CPtr seL4_CNode;
typedef seL4_CPtr seL4_TCB;
typedef seL4_CPtr seL4_SchedContext;
typedef seL4_CPtr seL4_IRQHandler;

#define seL4_True 1
#define seL4_False 0
#define seL4_WordBits 64
#define seL4_MsgMaxLength 120
#define seL4_Null 0
/* The space of the thread that calls; the only root that the calls on CNodes take. */
#define seL4_CapInitThreadCNode 2

typedef enum {
    seL4_NoError = 0,
    seL4_InvalidArgument,
    seL4_InvalidCapability,
    seL4_IllegalOperation,
    seL4_RangeError,
    seL4_AlignmentError,
    seL4_FailedLookup,
    seL4_TruncatedMessage,
    seL4_DeleteFirst,
    seL4_RevokeFirst,
    seL4_NotEnoughMemory
} seL4_Error;

/* A message's head: a label of 52 bits, the number of capabilities, and of words. */
typedef struct seL4_MessageInfo {
    seL4_Uint64 words[1];
} seL4_MessageInfo_t;

static inline seL4_MessageInfo_t seL4_MessageInfo_new(seL4_Uint64 label, seL4_Uint64 unwrapped,
                                                      seL4_Uint64 caps, seL4_Uint64 length) {
    seL4_MessageInfo_t info = {{(label & 0xfffffffffffffull) << 12 | (unwrapped & 7) << 9 |
                                (caps & 3) << 7 | (length & 127)}};
    return info;
}
static inline seL4_Uint64 seL4_MessageInfo_get_label(seL4_MessageInfo_t info) {
    return info.words[0] >> 12;
}
static inline seL4_Uint64 seL4_MessageInfo_get_capsUnwrapped(seL4_MessageInfo_t info) {
    return info.words[0] >> 9 & 7;
}
static inline seL4_Uint64 seL4_MessageInfo_get_extraCaps(seL4_MessageInfo_t info) {
    return info.words[0] >> 7 & 3;
}
static inline seL4_Uint64 seL4_MessageInfo_get_length(seL4_MessageInfo_t info) {
    return info.words[0] & 127;
}
static inline seL4_MessageInfo_t seL4_MessageInfo_set_label(seL4_MessageInfo_t info, seL4_Uint64 label) {
    return seL4_MessageInfo_new(label, 0, seL4_MessageInfo_get_extraCaps(info), seL4_MessageInfo_get_length(info));
}
static inline seL4_MessageInfo_t seL4_MessageInfo_set_length(seL4_MessageInfo_t info, seL4_Uint64 length) {
    return seL4_MessageInfo_new(seL4_MessageInfo_get_label(info), 0, seL4_MessageInfo_get_extraCaps(info), length);
}

typedef struct seL4_CapRights {
    seL4_Uint64 words[1];
} seL4_CapRights_t;

static inline seL4_CapRights_t seL4_CapRights_new(seL4_Uint64 reply, seL4_Uint64 grant, seL4_Uint64 read, seL4_Uint64 write) {
    seL4_CapRights_t rights = {{(reply & 1) << 3 | (grant & 1) << 2 | (read & 1) << 1 | (write & 1)}};
    return rights;
}
#define seL4_ReadWrite seL4_CapRights_new(0, 0, 1, 1)
#define seL4_AllRights seL4_CapRights_new(1, 1, 1, 1)
#define seL4_CanRead seL4_CapRights_new(0, 0, 1, 0)
#define seL4_CanWrite seL4_CapRights_new(0, 0, 0, 1)
#define seL4_NoWrite seL4_CapRights_new(1, 1, 1, 0)
#define seL4_NoRead seL4_CapRights_new(1, 1, 0, 1)
#define seL4_NoRights seL4_CapRights_new(0, 0, 0, 0)

/* The message registers of the thread that runs. */
typedef struct seL4_IPCBuffer_ {
    seL4_MessageInfo_t tag;
    seL4_Word msg[seL4_MsgMaxLength];
    seL4_Word userData;
} seL4_IPCBuffer;

seL4_IPCBuffer *seL4_GetIPCBuffer(void);

static inline void seL4_SetMR(int i, seL4_Word word) {
    seL4_GetIPCBuffer()->msg[i] = word;
}
static inline seL4_Word seL4_GetMR(int i) {
    return seL4_GetIPCBuffer()->msg[i];
}
static inline seL4_Word seL4_GetUserData(void) {
    return seL4_GetIPCBuffer()->userData;
}
static inline void seL4_SetUserData(seL4_Word data) {
    seL4_GetIPCBuffer()->userData = data;
}

/* Messages. A reply without a receive is seL4_Send over the reply object, as MCS has it. A call
 * that the kernel refuses is a fault of the thread: it does not return (sel4sim_fault). */
void seL4_Send(seL4_CPtr dest, seL4_MessageInfo_t info);
void seL4_NBSend(seL4_CPtr dest, seL4_MessageInfo_t info);
seL4_MessageInfo_t seL4_Call(seL4_CPtr dest, seL4_MessageInfo_t info);
seL4_MessageInfo_t seL4_Recv(seL4_CPtr src, seL4_Word *sender, seL4_CPtr reply);
seL4_MessageInfo_t seL4_NBRecv(seL4_CPtr src, seL4_Word *sender, seL4_CPtr reply);
seL4_MessageInfo_t seL4_ReplyRecv(seL4_CPtr src, seL4_MessageInfo_t info, seL4_Word *sender, seL4_CPtr reply);
seL4_MessageInfo_t seL4_NBSendRecv(seL4_CPtr dest, seL4_MessageInfo_t info, seL4_CPtr src, seL4_Word *sender, seL4_CPtr reply);
seL4_MessageInfo_t seL4_NBSendWait(seL4_CPtr dest, seL4_MessageInfo_t info, seL4_CPtr src, seL4_Word *sender);
seL4_MessageInfo_t seL4_Wait(seL4_CPtr src, seL4_Word *sender);
seL4_MessageInfo_t seL4_NBWait(seL4_CPtr src, seL4_Word *sender);
seL4_MessageInfo_t seL4_Poll(seL4_CPtr src, seL4_Word *sender);
void seL4_Signal(seL4_CPtr dest);

/* Invocations. The kernel's refusals are these errors: 1, 2, 3 and 8 FailedLookup; 4
 * InvalidCapability; 6 RangeError; 7 DeleteFirst; 11 NotEnoughMemory; 13 RevokeFirst; 5, 9, 10 and
 * 12 IllegalOperation. */
seL4_Error seL4_TCB_SetPriority(seL4_TCB service, seL4_TCB authority, seL4_Word priority);
seL4_Error seL4_TCB_Suspend(seL4_TCB service);
seL4_Error seL4_TCB_Resume(seL4_TCB service);
seL4_Error seL4_TCB_BindNotification(seL4_TCB service, seL4_CPtr notification);
seL4_Error seL4_TCB_UnbindNotification(seL4_TCB service);
seL4_Error seL4_SchedContext_Bind(seL4_SchedContext service, seL4_CPtr cap);
seL4_Error seL4_SchedContext_Unbind(seL4_SchedContext service);
seL4_Error seL4_CNode_Copy(seL4_CNode service, seL4_Word to, seL4_Uint8 to_depth, seL4_CNode root, seL4_Word from, seL4_Uint8 from_depth, seL4_CapRights_t rights);
seL4_Error seL4_CNode_Mint(seL4_CNode service, seL4_Word to, seL4_Uint8 to_depth, seL4_CNode root, seL4_Word from, seL4_Uint8 from_depth, seL4_CapRights_t rights, seL4_Word badge);
seL4_Error seL4_CNode_Move(seL4_CNode service, seL4_Word to, seL4_Uint8 to_depth, seL4_CNode root, seL4_Word from, seL4_Uint8 from_depth);
seL4_Error seL4_CNode_Delete(seL4_CNode service, seL4_Word index, seL4_Uint8 depth);
/* Only where `depth` is 64: the simulator names the endpoint by its address. */
seL4_Error seL4_CNode_CancelBadgedSends(seL4_CNode service, seL4_Word index, seL4_Uint8 depth);

void seL4_DebugPutChar(char c);

static inline void sel4sim_put(const seL4_Word *a, const seL4_Word *b, const seL4_Word *c, const seL4_Word *d) {
    if (a)
        seL4_SetMR(0, *a);
    if (b)
        seL4_SetMR(1, *b);
    if (c)
        seL4_SetMR(2, *c);
    if (d)
        seL4_SetMR(3, *d);
}
static inline void sel4sim_get(seL4_Word *a, seL4_Word *b, seL4_Word *c, seL4_Word *d) {
    if (a)
        *a = seL4_GetMR(0);
    if (b)
        *b = seL4_GetMR(1);
    if (c)
        *c = seL4_GetMR(2);
    if (d)
        *d = seL4_GetMR(3);
}
static inline void seL4_SendWithMRs(seL4_CPtr dest, seL4_MessageInfo_t info, seL4_Word *a, seL4_Word *b, seL4_Word *c, seL4_Word *d) {
    sel4sim_put(a, b, c, d);
    seL4_Send(dest, info);
}
static inline seL4_MessageInfo_t seL4_CallWithMRs(seL4_CPtr dest, seL4_MessageInfo_t info, seL4_Word *a, seL4_Word *b, seL4_Word *c, seL4_Word *d) {
    sel4sim_put(a, b, c, d);
    seL4_MessageInfo_t got = seL4_Call(dest, info);
    sel4sim_get(a, b, c, d);
    return got;
}
static inline seL4_MessageInfo_t seL4_RecvWithMRs(seL4_CPtr src, seL4_Word *sender, seL4_Word *a, seL4_Word *b, seL4_Word *c, seL4_Word *d, seL4_CPtr reply) {
    seL4_MessageInfo_t got = seL4_Recv(src, sender, reply);
    sel4sim_get(a, b, c, d);
    return got;
}
static inline seL4_MessageInfo_t seL4_ReplyRecvWithMRs(seL4_CPtr src, seL4_MessageInfo_t info, seL4_Word *sender, seL4_Word *a, seL4_Word *b, seL4_Word *c, seL4_Word *d, seL4_CPtr reply) {
    sel4sim_put(a, b, c, d);
    seL4_MessageInfo_t got = seL4_ReplyRecv(src, info, sender, reply);
    sel4sim_get(a, b, c, d);
    return got;
}

#endif
