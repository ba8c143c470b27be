/* Tests of mcs.h: what each call leaves at the ends of its buffers, after faults, and where memory
 * is refused. Link it with -Wl,--wrap=malloc -Wl,--wrap=realloc. */
#include "mcs.h"
#include <stdio.h>
#include <stdlib.h>
#include <string.h>

enum { ROOM = 1 << 14, STATES = 1000, NEVER = -1 };

static const char script[] =
    "cores 1\ncnode 1\ncnode 2\nendpoint\nreply\ncontext 0\ncontext 0\n"
    "thread 1 255 c1 63 0 run s1\nthread 2 255 c2 62 0 run s2\n"
    "slot c1 1 e1 wp 42\nslot c2 1 e1 r 0\nslot c2 2 r1\n"
    "0 t2 recv 1 2\n0 t1 call 1 1 16\n0 t2 replyrecv 1 2 7 17\n";

static const char trace[] =
    "cores 1\ncnode 1\ncnode 2\nendpoint\nreply\ncontext 0\ncontext 0\n"
    "thread 1 255 c1 63 0 run s1\nthread 2 255 c2 62 0 run s2\n"
    "slot c1 1 e1 wp 42\nslot c2 1 e1 r 0\nslot c2 2 r1\n"
    "0 t2 recv 1 2\n= waits\n+ joins t2 e1.recv r1\n"
    "0 t1 call 1 1 16\n= waits\n+ sent m0 t1 e1 call 42 1 16\n+ took m0 t2\n+ parts t2 e1.recv\n"
    "+ owes r1 t1 -\n+ turns t2 running\n"
    "0 t2 replyrecv 1 2 7 17\n= waits\n+ paid r1 t1 7 17\n+ turns t1 running\n+ joins t2 e1.recv r1\n";

/* The same with what is wanted: the last line does not hold. */
static const char wanted[] =
    "cores 1\ncnode 1\ncnode 2\nendpoint\nreply\ncontext 0\ncontext 0\n"
    "thread 1 255 c1 63 0 run s1\nthread 2 255 c2 62 0 run s2\n"
    "slot c1 1 e1 wp 42\nslot c2 1 e1 r 0\nslot c2 2 r1\n"
    "0 t2 recv 1 2\n= waits\n#? e1.recv t2\n0 t1 call 1 1 16\n#? t2 got 42 1 17\n";

static const char verdicts[] =
    "ok 1 - line 14: = waits\nok 2 - line 15: e1.recv t2\nnot ok 3 - line 17: t2 got 42 1 17\n"
    "  ---\n  wanted: 't2 got 42 1 17'\n  seen: 't2 got 42 1 16'\n  line: 16\n  behind: '0 t1 call 1 1 16'\n  ...\n"
    "1..3\n";

/* A user waits once, another signals once: all is done, and the first is answered. */
static const char users[] =
    "cores 1\ncnode 2\nnotification\ncontext 0\ncontext 0\n"
    "thread 20 255 c1 62 0 run s1\nthread 10 255 c1 62 0 run s2\nslot c1 1 n1 r 0\nslot c1 2 n1 w 4\n"
    "user t1 wait 1\nuser t2 signal 2\n#! answer t1 1 heard 4\n";

static const char plan[] = "endpoint work\nreply work.reply\nthread client prio 10\nthread server prio 20\n"
                           "client has work:wp=42\nserver has work:r work.reply\n"
                           "server: recv work work.reply\nclient: call work 7\n? server got 42 7\n";

/* The same with users: the client is never answered, a deadlock. */
static const char user_plan[] = "endpoint work\nreply work.reply\nthread client prio 10\nthread server prio 20\n"
                                "client has work:wp=42\nserver has work:r work.reply\n"
                                "user client: call work 7\nuser server: recv work work.reply\n";

static int failed;
static long left = NEVER;

void *__real_malloc(size_t size);
void *__real_realloc(void *block, size_t size);
void *__wrap_malloc(size_t size);
void *__wrap_realloc(void *block, size_t size);

/* Whether this request for memory is granted. */
static int grants(void) {
    return left == NEVER || left-- > 0;
}

void *__wrap_malloc(size_t size) {
    if (grants())
        return __real_malloc(size);
    left = 0;
    return NULL;
}

void *__wrap_realloc(void *block, size_t size) {
    if (grants())
        return __real_realloc(block, size);
    left = 0;
    return NULL;
}

static void expect(int holds, const char *what, size_t at) {
    if (!holds) {
        printf("calls: %s (%zu)\n", what, at);
        failed++;
    }
}

static const uint8_t *bytes(const char *text) {
    return (const uint8_t *)text;
}

/* Each size of the buffer: filled to its end, and not a byte further. */
static void rooms(void) {
    uint8_t out[sizeof trace + 8];
    size_t whole = sizeof trace - 1;
    for (size_t room = 0; room <= whole + 4; room++) {
        mcs_end end = {9, 9, 9};
        size_t n = room < whole ? room : whole;
        memset(out, 'x', sizeof out);
        uint32_t status = mcs_replay(bytes(script), sizeof script - 1, out, room, &end);
        expect(status == MCS_OK && end.length == whole && !end.line && !end.fault, "replay's end", room);
        expect(!memcmp(out, trace, n) && out[n] == 'x', "replay's bytes", room);
    }
}

/* Each cut of the script: what both parts add is the trace. */
static void pieces(void) {
    for (size_t at = 0; at < sizeof script; at++) {
        uint8_t out[ROOM];
        mcs_end first = {0, 0, 0}, second = {0, 0, 0}, last = {0, 0, 0};
        size_t n = sizeof script - 1;
        if (at && mcs_step(bytes(""), 0, bytes(script), at, out, ROOM, &first))
            expect(0, "a first piece", at);
        if (at < n && mcs_step(bytes(script), at, bytes(script) + at, n - at, out + first.length, ROOM - first.length, &second))
            expect(0, "a second piece", at);
        size_t length = first.length + second.length;
        expect(length == sizeof trace - 1 && !memcmp(out, trace, length), "pieces", at);
        expect(mcs_step(bytes(script), n, bytes(""), 0, out, ROOM, &last) == MCS_OK && last.length == 0, "the end adds nothing", at);
    }
}

static void faults(void) {
    static const struct {
        const char *text;
        uint64_t line, fault;
    } all[] = {
        {"", 1, 1},
        {"cnode 1\n", 1, 1},
        {"cores 1\nbad\n", 2, 2},
        {"cores 17\n", 1, 3},
        {"cores 1\ncnode 1\nthread 1 255 c2 63 0 run -\n", 3, 4},
        {"cores 1\ncnode 1\ncontext 0\nthread 1 255 c1 63 0 run s1\n0 t1 signal 1\nendpoint\n", 6, 8},
    };
    for (size_t i = 0; i < sizeof all / sizeof *all; i++) {
        uint8_t out[ROOM];
        mcs_end end = {0, 0, 0};
        uint32_t status = mcs_replay(bytes(all[i].text), strlen(all[i].text), out, ROOM, &end);
        expect(status == MCS_REFUSED && end.line == all[i].line && end.fault == all[i].fault, "replay's fault", i);
        mcs_end step = {0, 0, 0};
        status = mcs_step(bytes(all[i].text), strlen(all[i].text), bytes(""), 0, out, ROOM, &step);
        expect(status == MCS_REFUSED && step.line == end.line && step.fault == end.fault, "step's fault", i);
    }
}

/* Each request for memory refused in turn: 6, and nothing is written. */
static void refused(int steps) {
    for (long n = 0; n < 10000; n++) {
        uint8_t out[ROOM];
        mcs_end end = {9, 9, 9};
        memset(out, 'x', sizeof out);
        left = n;
        uint32_t status = steps ? mcs_step(bytes(script), 200, bytes(script) + 200, sizeof script - 201, out, ROOM, &end)
                                : mcs_replay(bytes(script), sizeof script - 1, out, ROOM, &end);
        left = NEVER;
        if (status == MCS_OK) {
            expect(n > 0, "no memory is needed", (size_t)n);
            return;
        }
        expect(status == MCS_NO_MEMORY && end.length == 9 && end.line == 9 && end.fault == 9, "refused memory's end", (size_t)n);
        for (size_t i = 0; i < ROOM; i++)
            if (out[i] != 'x') {
                expect(0, "refused memory's bytes", i);
                break;
            }
    }
    expect(0, "memory is always refused", 0);
}

typedef uint32_t (*text_call)(const uint8_t *text, size_t length, uint8_t *out, size_t room, mcs_end *end);

static uint32_t explore(const uint8_t *text, size_t length, uint8_t *out, size_t room, mcs_end *end) {
    return mcs_explore(text, length, STATES, out, room, end);
}

static uint32_t explore_one(const uint8_t *text, size_t length, uint8_t *out, size_t room, mcs_end *end) {
    return mcs_explore(text, length, 1, out, room, end);
}

static uint32_t explore_plan(const uint8_t *text, size_t length, uint8_t *out, size_t room, mcs_end *end) {
    return mcs_explore_plan(text, length, STATES, out, room, end);
}

static uint32_t state_plan(const uint8_t *text, size_t length, uint8_t *out, size_t room, mcs_end *end) {
    return mcs_state_plan(text, length, 8, out, room, end);
}

/* Calls of the tools: how each ends, and how its text begins. */
static const struct tool {
    text_call call;
    const char *text;
    uint32_t status;
    uint64_t line, fault;
    const char *begins;
} tools[] = {
    {mcs_check, script, MCS_OK, 0, 0, "1..0 # SKIP"},
    {mcs_check, trace, MCS_OK, 0, 0, "ok 1 - line 14: = waits\nok 2 - line 15: + joins t2 e1.recv r1\n"},
    {mcs_check, wanted, MCS_UNMET, 0, 0, verdicts},
    {mcs_check, "", MCS_REFUSED, 1, 1, "Bail out! line 1: "},
    {mcs_check, "cores 1\n#? t1 sleeps\n", MCS_REFUSED, 2, 10, "Bail out! line 2: "},
    {mcs_check, "cores 1\nendpoint\r\n", MCS_REFUSED, 2, 2, "Bail out! line 2: "},
    {mcs_compile, plan, MCS_OK, 0, 0, "#@ e1 work\n#@ r1 work.reply\n"},
    {mcs_compile, "endpoint work\nendpoint work\n", MCS_REFUSED, 2, 13, "line 2: \"work\" is named twice; first named in line 1, an endpoint\n"},
    {mcs_compile, "\xff", MCS_REFUSED, 1, 13, "line 1: its bytes are no text\n"},
    {explore, users, MCS_OK, 0, 0, ""},
    {explore_one, users, MCS_STOPPED, 0, 0, ""},
    {explore, "cores 1\nbad\n", MCS_REFUSED, 2, 2, "mcslab: line 2: fault 2: no form fits\n"},
    {explore, "cores 1\n#! bad\n", MCS_REFUSED, 2, 11, "mcslab: line 2: question: "},
    {mcs_check_plan, plan, MCS_OK, 0, 0, "ok 1 - line 9: server got 42 7\n1..1\n"},
    {mcs_check_plan, user_plan, MCS_REFUSED, 7, 14, "mcslab: line 7: this is a line of users: "},
    {mcs_check_plan, "endpoint work\nendpoint work\n", MCS_REFUSED, 2, 13,
     "Bail out! line 2: \"work\" is named twice; first named in line 1, an endpoint\n"},
    {mcs_why_plan, plan, MCS_OK, 0, 0, ""},
    {state_plan, plan, MCS_OK, 0, 0, "{"},
    {mcs_draw_plan, plan, MCS_OK, 0, 0, "<svg "},
    {explore_plan, user_plan, MCS_UNMET, 0, 0, ""},
    {explore_plan, plan, MCS_REFUSED, 7, 14, "mcslab: line 7: this is a step: "},
    {explore_plan, "endpoint work\n#! bad\n", MCS_REFUSED, 2, 11, "mcslab: line 2: question: "},
};

/* Each tool, with each size of its buffer up to the whole text and a little more. */
static void tool_rooms(void) {
    for (size_t i = 0; i < sizeof tools / sizeof *tools; i++) {
        const struct tool *tool = &tools[i];
        uint8_t whole[ROOM], out[ROOM];
        mcs_end end = {9, 9, 9};
        size_t length = strlen(tool->text), begins = strlen(tool->begins);
        uint32_t status = tool->call(bytes(tool->text), length, whole, ROOM, &end);
        expect(status == tool->status && end.line == tool->line && end.fault == tool->fault, "a tool's end", i);
        expect(end.length >= begins && end.length < ROOM && !memcmp(whole, tool->begins, begins), "a tool's text", i);
        for (size_t room = 0; room < ROOM && room <= end.length + 2; room++) {
            mcs_end again = {9, 9, 9};
            size_t n = room < end.length ? room : end.length;
            memset(out, 'x', ROOM);
            status = tool->call(bytes(tool->text), length, out, room, &again);
            expect(status == tool->status && again.length == end.length, "a tool's end in less room", i);
            expect(!memcmp(out, whole, n) && out[n] == 'x', "a tool's text in less room", i);
        }
    }
}

/* A plan becomes a script that holds. */
static void compiled(void) {
    uint8_t made[ROOM], out[ROOM];
    mcs_end end = {9, 9, 9}, checked = {9, 9, 9};
    mcs_compile(bytes(plan), sizeof plan - 1, made, ROOM, &end);
    uint32_t status = mcs_check(made, end.length, out, ROOM, &checked);
    static const char last[] = "\n1..1\n";
    size_t n = sizeof last - 1;
    expect(status == MCS_OK && checked.length > n && !memcmp(out + checked.length - n, last, n), "a plan's script", 0);
}

/* Each request for memory of each tool refused in turn. */
static void tools_refused(void) {
    for (size_t i = 0; i < sizeof tools / sizeof *tools; i++) {
        const struct tool *tool = &tools[i];
        uint32_t status = MCS_NO_MEMORY;
        for (long n = 0; n < 100000 && status == MCS_NO_MEMORY; n++) {
            uint8_t out[ROOM];
            mcs_end end = {9, 9, 9};
            memset(out, 'x', sizeof out);
            left = n;
            status = tool->call(bytes(tool->text), strlen(tool->text), out, ROOM, &end);
            left = NEVER;
            if (status == MCS_NO_MEMORY)
                expect(end.length == 9 && out[0] == 'x' && !memcmp(out, out + 1, ROOM - 1), "a tool's refused memory", i);
        }
        expect(status == tool->status, "a tool with memory", i);
    }
}

int main(void) {
    rooms();
    pieces();
    faults();
    refused(0);
    refused(1);
    tool_rooms();
    compiled();
    tools_refused();
    if (!failed)
        printf("calls: as wanted\n");
    return failed != 0;
}
