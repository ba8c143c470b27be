/* Tests of sel4sim: what each call brings back. */
#include "sel4sim.h"
#include <assert.h>
#include <stdlib.h>
#include <string.h>

/* One space of 16 slots for each of two threads of equal priority, and some objects. */
static const char boot[] =
    "cores 1\ncnode 5\ncnode 5\nendpoint\nendpoint\nnotification\nreply\nreply\ncontext 0\ncontext 0\n"
    "thread 10 255 c1 59 0 run s1\nthread 10 255 c2 59 0 run s2\n"
    "slot c1 1 e1 rwgp 42\nslot c1 2 n1 rw 4\nslot c1 3 r1\nslot c1 4 t2\nslot c1 5 s2\nslot c1 6 t1\nslot c1 7 e2 rw 0\nslot c1 8 e1 rwgp 0\n"
    "slot c2 1 e1 rwgp 0\nslot c2 2 n1 rw 8\nslot c2 3 r2\nslot c2 4 t1\nslot c2 7 e2 rw 9\nslot c2 8 e1 wp 43\n";

static int order[64];
static size_t order_length, order_at;

/* Picks as `order` says where that thread may run, and then the first. */
static size_t picks(const int *serials, size_t count) {
    for (size_t i = 0; order_at < order_length && i < count; i++)
        if (serials[i] == order[order_at]) {
            order_at++;
            return i;
        }
    return 0;
}

static int run(void (*one)(void *), void (*two)(void *), const char *picked) {
    sel4sim_boot(boot);
    sel4sim_thread(1, one, NULL);
    sel4sim_thread(2, two, NULL);
    order_at = 0;
    order_length = strlen(picked);
    for (size_t i = 0; i < order_length; i++)
        order[i] = picked[i] - '0';
    sel4sim_picker(picks);
    return sel4sim_run(0);
}

static seL4_MessageInfo_t message(seL4_Word label, seL4_Word length) {
    return seL4_MessageInfo_new(label, 0, 0, length);
}

static void nothing(void *with) {
    (void)with;
}

/* ---- a send, a receive, all words */

static void send_all(void *with) {
    (void)with;
    for (int i = 0; i < 120; i++)
        seL4_SetMR(i, ~(seL4_Word)i);
    seL4_Send(1, message(0xfffffffffffff, 120));
    seL4_NBSend(1, message(1, 0));
}

static void recv_all(void *with) {
    seL4_Word badge;
    (void)with;
    seL4_MessageInfo_t info = seL4_Recv(1, &badge, 3);
    assert(badge == 42 && seL4_MessageInfo_get_label(info) == 0xfffffffffffff && seL4_MessageInfo_get_length(info) == 120);
    for (int i = 0; i < 120; i++)
        assert(seL4_GetMR(i) == ~(seL4_Word)i);
}

/* ---- nothing there */

static void empty(void *with) {
    seL4_Word badge = 5;
    (void)with;
    seL4_MessageInfo_t info = seL4_NBRecv(1, &badge, 3);
    assert(badge == 0 && seL4_MessageInfo_get_label(info) == 0);
    badge = 5;
    seL4_Poll(2, &badge);
    assert(badge == 0);
    seL4_Signal(2);
    seL4_NBWait(2, &badge);
    assert(badge == 4);
    seL4_NBSend(1, message(1, 0));
}

/* ---- signals */

static void waits(void *with) {
    seL4_Word badge;
    (void)with;
    seL4_Wait(2, &badge);
    assert(badge == 8);
    seL4_Wait(2, &badge);
    assert(badge == 8);
}

static void signals(void *with) {
    (void)with;
    seL4_Signal(2);
    seL4_Signal(2);
}

/* ---- calls, replies by a send over the reply object, sends that receive */

static void calls(void *with) {
    (void)with;
    seL4_Word a = 3, b = 4;
    seL4_MessageInfo_t info = seL4_CallWithMRs(1, message(9, 2), &a, &b, NULL, NULL);
    assert(seL4_MessageInfo_get_label(info) == 10 && seL4_MessageInfo_get_length(info) == 1 && a == 7);
    seL4_SetMR(0, 1);
    info = seL4_Call(1, message(11, 1));
    assert(seL4_MessageInfo_get_label(info) == 12 && seL4_GetMR(0) == 2);
}

static void answers(void *with) {
    seL4_Word badge, a, b;
    (void)with;
    seL4_MessageInfo_t info = seL4_RecvWithMRs(1, &badge, &a, &b, NULL, NULL, 3);
    assert(badge == 42 && seL4_MessageInfo_get_label(info) == 9);
    a += b;
    seL4_SendWithMRs(3, message(10, 1), &a, NULL, NULL, NULL);
    info = seL4_Recv(1, &badge, 3);
    assert(seL4_MessageInfo_get_label(info) == 11);
    seL4_SetMR(0, seL4_GetMR(0) + 1);
    seL4_ReplyRecv(1, message(12, 1), &badge, 3);
    assert(0);
}

static void gives(void *with) {
    seL4_Word badge;
    (void)with;
    seL4_SetMR(0, 6);
    seL4_MessageInfo_t info = seL4_NBSendRecv(2, message(0, 0), 1, &badge, 3);
    assert(badge == 43 && seL4_MessageInfo_get_label(info) == 5 && seL4_GetMR(0) == 77);
    info = seL4_NBSendWait(2, message(0, 0), 7, &badge);
    assert(badge == 9 && seL4_MessageInfo_get_label(info) == 6);
}

static void given(void *with) {
    seL4_Word badge;
    (void)with;
    seL4_Wait(2, &badge);
    assert(badge == 4);
    seL4_SetMR(0, 77);
    seL4_Send(8, message(5, 1));
    seL4_Wait(2, &badge);
    seL4_Send(7, message(6, 0));
}

/* ---- invocations and their errors */

static void invokes(void *with) {
    (void)with;
    assert(seL4_CNode_Mint(2, 16, 64, 2, 8, 64, seL4_CanWrite, 99) == seL4_NoError);
    assert(seL4_CNode_Copy(2, 16, 64, 2, 1, 64, seL4_AllRights) == seL4_DeleteFirst);
    assert(seL4_CNode_Copy(2, 17, 64, 2, 20, 64, seL4_AllRights) == seL4_FailedLookup);
    assert(seL4_CNode_Move(2, 17, 64, 2, 16, 64) == seL4_NoError);
    assert(seL4_CNode_Delete(2, 17, 64) == seL4_NoError);
    assert(seL4_TCB_SetPriority(4, 6, 256) == seL4_RangeError);
    assert(seL4_TCB_SetPriority(4, 6, 3) == seL4_NoError);
    assert(seL4_TCB_SetPriority(1, 6, 3) == seL4_InvalidCapability);
    assert(seL4_TCB_BindNotification(4, 2) == seL4_NoError);
    assert(seL4_TCB_BindNotification(4, 2) == seL4_IllegalOperation);
    assert(seL4_TCB_UnbindNotification(4) == seL4_NoError);
    assert(seL4_SchedContext_Bind(5, 4) == seL4_IllegalOperation);
    assert(seL4_SchedContext_Unbind(5) == seL4_NoError);
    assert(seL4_SchedContext_Bind(5, 4) == seL4_NoError);
}

/* ---- a call that is broken off is made again */

static void suspends(void *with) {
    seL4_Word badge;
    (void)with;
    assert(seL4_TCB_Suspend(4) == seL4_NoError);
    assert(seL4_TCB_Resume(4) == seL4_NoError);
    seL4_MessageInfo_t info = seL4_Recv(1, &badge, 3);
    assert(badge == 43 && seL4_MessageInfo_get_label(info) == 8);
    assert(seL4_CNode_CancelBadgedSends(2, 8, 64) == seL4_NoError);
}

static void suspended(void *with) {
    (void)with;
    seL4_Send(8, message(8, 0));
}

/* ---- what is refused, who is stuck */

static void refused(void *with) {
    (void)with;
    seL4_Send(30, message(0, 0));
    assert(0);
}

static void calls_nobody(void *with) {
    (void)with;
    seL4_Call(1, message(0, 0));
    assert(0);
}

static void points(void *with) {
    (void)with;
    assert(sel4sim_current() == 1);
    sel4sim_point();
    seL4_Signal(2);
}

int main(void) {
    assert(run(send_all, recv_all, "12") == SEL4SIM_DONE);
    assert(run(send_all, recv_all, "21") == SEL4SIM_DONE);
    assert(run(empty, nothing, "") == SEL4SIM_DONE);
    assert(run(waits, signals, "12121212") == SEL4SIM_DONE);
    assert(run(waits, signals, "222222") == SEL4SIM_STUCK && sel4sim_is_stuck(1) && !sel4sim_is_stuck(2) && sel4sim_stuck() == 1);
    assert(run(calls, answers, "12") == SEL4SIM_STUCK && sel4sim_is_stuck(2) && sel4sim_ended(1));
    assert(run(calls, answers, "21") == SEL4SIM_STUCK);
    assert(run(gives, given, "2121") == SEL4SIM_DONE);
    assert(run(gives, given, "1212") == SEL4SIM_DONE);
    assert(run(invokes, nothing, "1111111111111111") == SEL4SIM_DONE);
    assert(run(suspends, suspended, "2112") == SEL4SIM_DONE);
    assert(run(suspends, suspended, "1122") == SEL4SIM_DONE);
    assert(run(refused, nothing, "1") == SEL4SIM_FAULTED && sel4sim_fault(1) == 1);
    assert(run(calls_nobody, nothing, "1") == SEL4SIM_STUCK && sel4sim_is_stuck(1));
    assert(sel4sim_says("t1 waits e1.send") && sel4sim_says("e1.send t1") && sel4sim_says("t2 running"));
    assert(!sel4sim_says("t1 running") && !sel4sim_says("e1.recv t2") && sel4sim_says("s1 held t1"));
    assert(sel4sim_next(0) == 2 && sel4sim_next(1) == 0);
    assert(run(points, nothing, "12") == SEL4SIM_DONE);
    sel4sim_boot("cores 1\nbad\n");
    assert(sel4sim_run(0) == SEL4SIM_DONE && !sel4sim_stuck());
    puts("layer: as wanted");
    return 0;
}
