/* sel4sim: seL4 threads in C, as coroutines over the proved simulator. Not proved.
 *
 * The kernel is mcs_step. What this file keeps of threads is a fold over the kernel's records. */
#define _GNU_SOURCE
#include "sel4sim.h"
#include "mcs.h"

#include <malloc.h>
#include <stdarg.h>
#include <stdlib.h>
#include <string.h>
#include <sys/mman.h>
#include <sys/wait.h>
#include <ucontext.h>
#include <unistd.h>

#if defined __has_feature
#if __has_feature(address_sanitizer)
#define HAS_ASAN
#endif
#elif defined __SANITIZE_ADDRESS__
#define HAS_ASAN
#endif
#ifdef HAS_ASAN
#include <sanitizer/common_interface_defs.h>
#endif
#ifdef SEL4SIM_VALGRIND
#include <valgrind/valgrind.h>
#endif

enum { THREADS = 257, STACK = 256 * 1024, LINE = 4200, CHOICES = 4096, KEPT = 1 << 20, KEPT_MEMORY = 1 << 25 };

/* ---- the world */

enum call { NO_CALL, SENDS, CALLS, RECEIVES, INVOKES };

struct thread {
    /* the coroutine */
    void (*code)(void *);
    void *with;
    ucontext_t at;
    void *stack, *shadow;
    unsigned stack_number;
    bool begun, ended, serves;
    seL4_IPCBuffer buffer;
    /* the call that has not returned, and what it returns */
    enum call call;
    char line[LINE];
    bool answered;
    int refused, fault;
    seL4_Word badge;
    seL4_MessageInfo_t info;
    /* by the records */
    bool made, runs, restarts, queued, owed, receives;
    int priority, context;
};

struct text {
    char *bytes;
    size_t length, room;
};

/* A message by its number: its sender, and where its record stands in the trace. */
struct message {
    int sender;
    size_t at;
};

static struct thread threads[THREADS];
static struct text script, trace;
static struct message *messages;
static size_t message_count, message_room;
static int cores_of[THREADS], context_count, thread_count;
static ucontext_t scheduler;
static struct thread *current;
static unsigned long limit = 10000;
static bool only_highest;
static size_t (*picker)(const int *, size_t);
static uint64_t random_state;
static int wrong;

/* What the process of one order or seed leaves to its parent. */
static struct kept {
    size_t count, length;
    unsigned max;
    bool is_cut;
    uint16_t chosen[CHOICES], of[CHOICES];
    size_t forced;
    char trace[KEPT];
} *kept;
static bool is_child;

static void fail(const char *why) {
    fprintf(stderr, "sel4sim: %s\n", why);
    abort();
}

static void *need(void *block) {
    if (!block)
        fail("out of memory");
    return block;
}

static void append(struct text *to, const char *bytes, size_t length) {
    if (to->length + length + 1 > to->room) {
        to->room = 2 * (to->length + length) + 4096;
        to->bytes = need(realloc(to->bytes, to->room));
    }
    memcpy(to->bytes + to->length, bytes, length);
    to->length += length;
    to->bytes[to->length] = 0;
}

static int serial_of(const struct thread *t) {
    return (int)(t - threads);
}

static struct thread *thread_at(long serial) {
    if (serial < 1 || serial >= THREADS)
        fail("a thread's serial is 1 to 256");
    return &threads[serial];
}

/* ---- records */

/* The number at the head of a word, after a letter where it has one; the word's end. */
static uint64_t number(const char **at) {
    char *end;
    while (**at == ' ')
        (*at)++;
    if (**at >= 'a' && **at <= 'z')
        (*at)++;
    uint64_t n = strtoull(*at, &end, 10);
    *at = end;
    return n;
}

/* Skips a word, and says whether it was this one. */
static bool word_is(const char **at, const char *word) {
    size_t n;
    while (**at == ' ')
        (*at)++;
    n = strcspn(*at, " \n");
    bool is = strlen(word) == n && !memcmp(*at, word, n);
    if (is)
        *at += n;
    return is;
}

static bool more_on(const char *at) {
    while (*at == ' ')
        at++;
    return *at && *at != '\n';
}

/* A call returned, with a badge. */
static void answer(struct thread *t, seL4_Word badge) {
    t->answered = true;
    t->badge = badge;
    t->info = seL4_MessageInfo_new(0, 0, 0, 0);
}

/* A call returned with a message: its label and words stand at this place. */
static void answer_with(struct thread *t, seL4_Word badge, const char *at) {
    answer(t, badge);
    seL4_Word label = number(&at), n = 0;
    while (more_on(at) && n < seL4_MsgMaxLength)
        t->buffer.msg[n++] = number(&at);
    t->info = seL4_MessageInfo_new(label, 0, 0, n);
    t->buffer.tag = t->info;
}

static void hear_sent(const char *at, size_t place) {
    size_t n = number(&at);
    if (n >= message_room) {
        message_room = 2 * n + 64;
        messages = need(realloc(messages, message_room * sizeof *messages));
    }
    messages[n].sender = (int)number(&at);
    messages[n].at = place;
    message_count = n + 1;
}

/* A message was taken: its taker has it, and a sender that waits for no reply is done. */
static void hear_took(const char *at) {
    size_t n = number(&at);
    struct thread *taker = thread_at((long)number(&at));
    if (n >= message_count)
        fail("a message is taken that was not sent");
    const char *record = trace.bytes + messages[n].at;
    struct thread *sender = &threads[messages[n].sender];
    number(&record);
    number(&record);
    number(&record);
    record += strspn(record, " ");
    record += strcspn(record, " \n");
    seL4_Word badge = number(&record);
    if (taker->call == RECEIVES && !taker->answered)
        answer_with(taker, badge, record);
    if (sender->call == SENDS && !sender->answered)
        answer(sender, 0);
}

static void hear_turns(struct thread *t, const char *at) {
    t->runs = word_is(&at, "running");
    t->restarts = !t->runs && word_is(&at, "restart");
}

static void hear_holds(const char *at) {
    int context = (int)number(&at);
    for (struct thread *t = threads + 1; t < threads + THREADS; t++)
        if (t->context == context)
            t->context = 0;
    if (!word_is(&at, "-"))
        thread_at((long)number(&at))->context = context;
}

/* What a record says of threads; `place` is where it stands in the trace. */
static void hear(const char *record, size_t place) {
    const char *at = record + 2, *rest;
    if (word_is(&at, "sent")) {
        hear_sent(at, place + (size_t)(at - record));
    } else if (word_is(&at, "took")) {
        hear_took(at);
    } else if (word_is(&at, "turns")) {
        rest = at;
        struct thread *t = thread_at((long)number(&rest));
        hear_turns(t, rest);
    } else if (word_is(&at, "joins")) {
        struct thread *t = thread_at((long)number(&at));
        at += strcspn(at, ".");
        t->queued = true;
        t->receives = strncmp(at, ".send", 5) != 0;
    } else if (word_is(&at, "parts")) {
        thread_at((long)number(&at))->queued = false;
    } else if (word_is(&at, "holds")) {
        hear_holds(at);
    } else if (word_is(&at, "prio")) {
        struct thread *t = thread_at((long)number(&at));
        t->priority = (int)number(&at);
    } else if (word_is(&at, "owes")) {
        number(&at);
        thread_at((long)number(&at))->owed = true;
    } else if (word_is(&at, "paid")) {
        number(&at);
        struct thread *t = thread_at((long)number(&at));
        t->owed = false;
        if (t->call == CALLS && !t->answered)
            answer_with(t, 0, at);
    } else if (word_is(&at, "void")) {
        number(&at);
        thread_at((long)number(&at))->owed = false;
    } else if (word_is(&at, "heard")) {
        struct thread *t = thread_at((long)number(&at));
        number(&at);
        if (t->call == RECEIVES && !t->answered)
            answer(t, number(&at));
    } else if (word_is(&at, "made") && at[1] == 's') {
        context_count++;
    } else if (word_is(&at, "closed") && at[1] == 't') {
        thread_at((long)number(&at))->made = false;
    }
}

/* The answer of the step of a thread. */
static void hear_answer(struct thread *t, const char *at) {
    at += 2;
    if (word_is(&at, "got")) {
        seL4_Word badge = number(&at);
        answer_with(t, badge, at);
    } else if (word_is(&at, "heard")) {
        answer(t, number(&at));
    } else if (word_is(&at, "done") || word_is(&at, "empty")) {
        answer(t, 0);
    } else if (word_is(&at, "refused")) {
        answer(t, 0);
        t->refused = (int)number(&at);
    }
}

/* Reads what a step of this thread added to the trace, from this place on. Says whether the step
 * was let in. */
static bool hear_all(struct thread *t, size_t from) {
    bool entered = false;
    for (size_t at = from; at < trace.length;) {
        const char *line = trace.bytes + at;
        if (line[0] == '=') {
            entered = true;
            hear_answer(t, line);
        } else if (line[0] == '+') {
            hear(line, at);
        }
        at += strcspn(line, "\n") + 1;
    }
    return entered;
}

/* ---- the kernel */

/* Gives the kernel a line; adds what that adds to the trace. Returns mcs_step's status. */
static uint32_t step(const char *line) {
    static size_t room = 1 << 14;
    mcs_end end = {0, 0, 0};
    for (;;) {
        char *out = need(malloc(room));
        uint32_t status = mcs_step((const uint8_t *)script.bytes, script.length, (const uint8_t *)line, strlen(line), (uint8_t *)out, room, &end);
        if (status == MCS_NO_MEMORY)
            fail("out of memory");
        if (end.length <= room) {
            append(&trace, out, end.length);
            free(out);
            if (status == MCS_OK)
                append(&script, line, strlen(line));
            else
                fprintf(stderr, "sel4sim: line %llu: fault %llu: %s", (unsigned long long)end.line, (unsigned long long)end.fault, line);
            if (is_child && trace.length <= KEPT) {
                memcpy(kept->trace, trace.bytes, trace.length);
                kept->length = trace.length;
            }
            return status;
        }
        free(out);
        room = end.length;
    }
}

/* Enters the kernel with the call of a thread, on the core of its context. */
static uint32_t enter(struct thread *t) {
    char line[LINE + 32];
    size_t from = trace.length;
    snprintf(line, sizeof line, "%d t%d %s\n", cores_of[t->context], serial_of(t), t->line);
    int before = context_count, core = cores_of[t->context];
    uint32_t status = step(line);
    if (status)
        return status;
    if (!hear_all(t, from))
        fail("the kernel turned a thread away that may run by its records");
    for (int s = before + 1; s <= context_count && s < THREADS; s++)
        cores_of[s] = core;
    return MCS_OK;
}

/* ---- stacks, of which AddressSanitizer and valgrind are told */

/* The scheduler's stack, and what AddressSanitizer keeps of it. */
static const void *scheduler_stack;
static size_t scheduler_size;
static void *scheduler_shadow;

static void make_stack(struct thread *t) {
    t->stack = need(malloc(STACK));
#ifdef SEL4SIM_VALGRIND
    t->stack_number = VALGRIND_STACK_REGISTER(t->stack, (char *)t->stack + STACK);
#endif
}

static void drop_stack(struct thread *t) {
#ifdef SEL4SIM_VALGRIND
    if (t->stack)
        VALGRIND_STACK_DEREGISTER(t->stack_number);
#endif
    free(t->stack);
}

/* Tells that the next switch leads to a stack; `shadow` is NULL where it is the last from here. */
static void leave_for(void **shadow, const void *stack, size_t size) {
#ifdef HAS_ASAN
    __sanitizer_start_switch_fiber(shadow, stack, size);
#else
    (void)shadow, (void)stack, (void)size;
#endif
}

/* Tells that a switch led here, and asks from which stack. */
static void arrive(void *shadow, const void **stack, size_t *size) {
#ifdef HAS_ASAN
    __sanitizer_finish_switch_fiber(shadow, stack, size);
#else
    (void)shadow, (void)stack, (void)size;
#endif
}

/* ---- boot */

/* Lets malloc keep what one step gives back for the next, which builds the same state again: without
 * that most of a run's time is the system's. */
static void keep_memory(void) {
#ifdef __GLIBC__
    static bool is_kept;
    if (!is_kept)
        is_kept = mallopt(M_TRIM_THRESHOLD, KEPT_MEMORY) && mallopt(M_MMAP_THRESHOLD, KEPT_MEMORY);
#endif
}

static void hear_boot(const char *line) {
    const char *at = line;
    if (word_is(&at, "context")) {
        if (++context_count < THREADS)
            cores_of[context_count] = (int)number(&at);
    } else if (word_is(&at, "thread")) {
        struct thread *t = thread_at(++thread_count);
        t->made = true;
        t->priority = (int)number(&at);
        number(&at);
        number(&at);
        number(&at);
        number(&at);
        t->runs = word_is(&at, "run");
        if (!t->runs)
            word_is(&at, "stop");
        t->context = word_is(&at, "-") ? 0 : (int)number(&at);
    }
}

void sel4sim_boot(const char *boot) {
    keep_memory();
    for (struct thread *t = threads; t < threads + THREADS; t++)
        drop_stack(t);
    memset(threads, 0, sizeof threads);
    script.length = trace.length = message_count = 0;
    context_count = thread_count = wrong = 0;
    limit = 10000;
    only_highest = false;
    picker = NULL;
    append(&script, boot, strlen(boot));
    append(&trace, "", 0);
    if (script.length && script.bytes[script.length - 1] != '\n')
        append(&script, "\n", 1);
    for (const char *line = script.bytes; *line; line += strcspn(line, "\n") + 1)
        hear_boot(line);
}

void sel4sim_thread(int serial, void (*code)(void *), void *with) {
    struct thread *t = thread_at(serial);
    t->code = code;
    t->with = with;
}

void sel4sim_serves(int serial) {
    thread_at(serial)->serves = true;
}

void sel4sim_limit(unsigned long calls) {
    limit = calls;
}

void sel4sim_by_priority(bool highest) {
    only_highest = highest;
}

void sel4sim_picker(size_t (*pick)(const int *, size_t)) {
    picker = pick;
}

/* ---- coroutines */

/* Goes from the code of a thread to the scheduler, and comes back when it is resumed. */
static void give_way(struct thread *t) {
    leave_for(t->ended ? NULL : &t->shadow, scheduler_stack, scheduler_size);
    swapcontext(&t->at, &scheduler);
    arrive(t->shadow, &scheduler_stack, &scheduler_size);
}

static void run_code(void) {
    struct thread *t = current;
    arrive(NULL, &scheduler_stack, &scheduler_size);
    t->code(t->with);
    t->ended = true;
    give_way(t);
}

static void begin(struct thread *t) {
    t->begun = true;
    make_stack(t);
    getcontext(&t->at);
    t->at.uc_stack.ss_sp = t->stack;
    t->at.uc_stack.ss_size = STACK;
    t->at.uc_link = &scheduler;
    makecontext(&t->at, run_code, 0);
}

/* Lets the code of a thread go on to its next call. */
static void resume(struct thread *t) {
    if (!t->begun)
        begin(t);
    current = t;
    t->call = NO_CALL;
    leave_for(&scheduler_shadow, t->stack, STACK);
    swapcontext(&scheduler, &t->at);
    arrive(scheduler_shadow, NULL, NULL);
    current = NULL;
}

/* ---- the scheduler */

static bool may_run(const struct thread *t) {
    return t->made && t->code && !t->ended && !t->fault && (t->runs || t->restarts) && !t->queued && !t->owed && t->context;
}

/* Whether a comes before b: by priority, then by serial. */
static bool comes_before(const struct thread *a, const struct thread *b) {
    return a->priority > b->priority || (a->priority == b->priority && a < b);
}

static bool is_highest(const struct thread *t) {
    for (struct thread *u = threads + 1; u < threads + THREADS; u++)
        if (may_run(u) && u->priority > t->priority && cores_of[u->context] == cores_of[t->context])
            return false;
    return true;
}

static size_t runnable(int *serials) {
    size_t n = 0;
    for (struct thread *t = threads + 1; t < threads + THREADS; t++) {
        if (!may_run(t) || (only_highest && !is_highest(t)))
            continue;
        size_t at = n++;
        for (; at && comes_before(t, &threads[serials[at - 1]]); at--)
            serials[at] = serials[at - 1];
        serials[at] = serial_of(t);
    }
    return n;
}

static uint64_t next_random(void) {
    uint64_t z = (random_state += 0x9e3779b97f4a7c15ull);
    z = (z ^ z >> 30) * 0xbf58476d1ce4e5b9ull;
    z = (z ^ z >> 27) * 0x94d049bb133111ebull;
    return z ^ z >> 31;
}

/* A choice of a search: as the prefix says, and then the first. */
static size_t searched(size_t count) {
    size_t at = kept->count;
    if (at >= kept->max) {
        kept->is_cut = true;
        return 0;
    }
    size_t chosen = at < kept->forced ? kept->chosen[at] : 0;
    if (chosen >= count)
        fail("a test is not the same each time: it may look at nothing but its messages");
    kept->chosen[at] = (uint16_t)chosen;
    kept->of[at] = (uint16_t)count;
    kept->count++;
    return chosen;
}

static size_t choose(const int *serials, size_t count, uint64_t seed) {
    size_t at = 0;
    if (count == 1)
        return 0;
    if (is_child && kept->max)
        return searched(count);
    if (picker) {
        at = picker(serials, count);
        if (at >= count)
            fail("the picker names no thread that may run");
        return at;
    }
    return seed ? next_random() % count : 0;
}

/* The turn of a thread: its code to the next call, and that call. A call that a cancellation broke
 * off is made again. */
static uint32_t turn(struct thread *t) {
    if (t->call == NO_CALL || t->answered) {
        resume(t);
        if (t->ended || t->call == NO_CALL)
            return MCS_OK;
        t->answered = false;
        t->refused = 0;
    }
    uint32_t status = enter(t);
    if (!status && t->refused && t->call != INVOKES) {
        t->fault = t->refused;
        fprintf(stderr, "sel4sim: t%d %s: refused %d\n", serial_of(t), t->line, t->fault);
    }
    return status;
}

int sel4sim_run(uint64_t seed) {
    int serials[THREADS];
    random_state = seed;
    for (unsigned long calls = 0; calls < limit; calls++) {
        size_t count = runnable(serials);
        if (!count) {
            for (struct thread *t = threads + 1; t < threads + THREADS; t++)
                if (t->fault)
                    return SEL4SIM_FAULTED;
            return sel4sim_stuck() ? SEL4SIM_STUCK : SEL4SIM_DONE;
        }
        uint32_t status = turn(&threads[serials[choose(serials, count, seed)]]);
        if (status)
            return status == MCS_BOOK_FULL ? SEL4SIM_LIMIT : SEL4SIM_REFUSED;
    }
    return SEL4SIM_LIMIT;
}

bool sel4sim_is_stuck(int serial) {
    const struct thread *t = thread_at(serial);
    if (!t->code || t->ended || t->fault || may_run(t))
        return false;
    bool is_inactive = !t->runs && !t->restarts && !t->queued && !t->owed;
    return !(t->serves && (is_inactive || (t->queued && t->receives)));
}

int sel4sim_stuck(void) {
    int n = 0;
    for (int serial = 1; serial < THREADS; serial++)
        n += sel4sim_is_stuck(serial);
    return n;
}

bool sel4sim_ended(int serial) {
    return thread_at(serial)->ended;
}

int sel4sim_fault(int serial) {
    return thread_at(serial)->fault;
}

bool sel4sim_says(const char *question) {
    struct text text = {0};
    mcs_end end = {0, 0, 0};
    append(&text, script.bytes, script.length);
    append(&text, "#? ", 3);
    append(&text, question, strlen(question));
    append(&text, "\n", 1);
    uint32_t status = mcs_check((const uint8_t *)text.bytes, text.length, NULL, 0, &end);
    free(text.bytes);
    if (status != MCS_OK && status != MCS_UNMET)
        fail("a question is refused, or memory, or a line of the boot");
    return status == MCS_OK;
}

int sel4sim_next(uint8_t core) {
    mcs_end end = {0, 0, 0};
    uint32_t thread = 0;
    uint32_t status = mcs_pick((const uint8_t *)script.bytes, script.length, core, &thread, &end);
    if (status != MCS_OK)
        fail("a pick is refused memory, or a line of the boot is refused");
    return (int)thread;
}

int sel4sim_current(void) {
    return current ? serial_of(current) : 0;
}

/* ---- calls */

static struct thread *running(void) {
    if (!current)
        fail("a call of the kernel outside of a thread's code");
    return current;
}

void sel4sim_point(void) {
    struct thread *t = running();
    t->call = NO_CALL;
    give_way(t);
}

static void leave(struct thread *t, enum call call) {
    t->call = call;
    give_way(t);
}

/* Makes a call, and comes back when it has returned. */
static struct thread *make(enum call call, const char *form, ...) {
    struct thread *t = running();
    va_list all;
    va_start(all, form);
    vsnprintf(t->line, sizeof t->line, form, all);
    va_end(all);
    leave(t, call);
    return t;
}

/* The same, with a message behind the other words. */
static struct thread *make_with(enum call call, seL4_MessageInfo_t info, const char *form, ...) {
    struct thread *t = running();
    seL4_Word words = seL4_MessageInfo_get_length(info);
    va_list all;
    va_start(all, form);
    int at = vsnprintf(t->line, sizeof t->line, form, all);
    va_end(all);
    if (seL4_MessageInfo_get_extraCaps(info))
        fail("capabilities in messages are not simulated");
    if (words > seL4_MsgMaxLength)
        words = seL4_MsgMaxLength;
    at += snprintf(t->line + at, sizeof t->line - (size_t)at, " %llu", (unsigned long long)seL4_MessageInfo_get_label(info));
    for (seL4_Word i = 0; i < words; i++)
        at += snprintf(t->line + at, sizeof t->line - (size_t)at, " %lu", t->buffer.msg[i]);
    leave(t, call);
    return t;
}

static seL4_MessageInfo_t received(struct thread *t, seL4_Word *sender) {
    if (sender)
        *sender = t->badge;
    return t->info;
}

seL4_IPCBuffer *seL4_GetIPCBuffer(void) {
    return &running()->buffer;
}

void seL4_Send(seL4_CPtr dest, seL4_MessageInfo_t info) {
    make_with(SENDS, info, "send %lu", dest);
}

void seL4_NBSend(seL4_CPtr dest, seL4_MessageInfo_t info) {
    make_with(SENDS, info, "nbsend %lu", dest);
}

seL4_MessageInfo_t seL4_Call(seL4_CPtr dest, seL4_MessageInfo_t info) {
    return make_with(CALLS, info, "call %lu", dest)->info;
}

seL4_MessageInfo_t seL4_Recv(seL4_CPtr src, seL4_Word *sender, seL4_CPtr reply) {
    return received(make(RECEIVES, "recv %lu %lu", src, reply), sender);
}

seL4_MessageInfo_t seL4_NBRecv(seL4_CPtr src, seL4_Word *sender, seL4_CPtr reply) {
    return received(make(RECEIVES, "nbrecv %lu %lu", src, reply), sender);
}

seL4_MessageInfo_t seL4_ReplyRecv(seL4_CPtr src, seL4_MessageInfo_t info, seL4_Word *sender, seL4_CPtr reply) {
    return received(make_with(RECEIVES, info, "replyrecv %lu %lu", src, reply), sender);
}

seL4_MessageInfo_t seL4_NBSendRecv(seL4_CPtr dest, seL4_MessageInfo_t info, seL4_CPtr src, seL4_Word *sender, seL4_CPtr reply) {
    return received(make_with(RECEIVES, info, "nbsendrecv %lu %lu %lu", dest, src, reply), sender);
}

seL4_MessageInfo_t seL4_NBSendWait(seL4_CPtr dest, seL4_MessageInfo_t info, seL4_CPtr src, seL4_Word *sender) {
    return received(make_with(RECEIVES, info, "nbsendwait %lu %lu", dest, src), sender);
}

seL4_MessageInfo_t seL4_Wait(seL4_CPtr src, seL4_Word *sender) {
    return received(make(RECEIVES, "wait %lu", src), sender);
}

seL4_MessageInfo_t seL4_NBWait(seL4_CPtr src, seL4_Word *sender) {
    return received(make(RECEIVES, "nbwait %lu", src), sender);
}

seL4_MessageInfo_t seL4_Poll(seL4_CPtr src, seL4_Word *sender) {
    return seL4_NBWait(src, sender);
}

void seL4_Signal(seL4_CPtr dest) {
    make(SENDS, "signal %lu", dest);
}

static seL4_Error error(const struct thread *t) {
    static const seL4_Error errors[] = {
        seL4_NoError, seL4_FailedLookup, seL4_FailedLookup, seL4_FailedLookup, seL4_InvalidCapability,
        seL4_IllegalOperation, seL4_RangeError, seL4_DeleteFirst, seL4_FailedLookup, seL4_IllegalOperation,
        seL4_IllegalOperation, seL4_NotEnoughMemory, seL4_IllegalOperation, seL4_RevokeFirst};
    return t->refused < (int)(sizeof errors / sizeof *errors) ? errors[t->refused] : seL4_InvalidArgument;
}

seL4_Error seL4_TCB_SetPriority(seL4_TCB service, seL4_TCB authority, seL4_Word priority) {
    if (priority > 255)
        return seL4_RangeError;
    return error(make(INVOKES, "setprio %lu %lu %lu", service, authority, priority));
}

seL4_Error seL4_TCB_Suspend(seL4_TCB service) {
    return error(make(INVOKES, "suspend %lu", service));
}

seL4_Error seL4_TCB_Resume(seL4_TCB service) {
    return error(make(INVOKES, "resume %lu", service));
}

seL4_Error seL4_TCB_BindNotification(seL4_TCB service, seL4_CPtr notification) {
    return error(make(INVOKES, "bindntfn %lu %lu", service, notification));
}

seL4_Error seL4_TCB_UnbindNotification(seL4_TCB service) {
    return error(make(INVOKES, "unbindntfn %lu", service));
}

seL4_Error seL4_SchedContext_Bind(seL4_SchedContext service, seL4_CPtr cap) {
    return error(make(INVOKES, "bind %lu %lu", service, cap));
}

seL4_Error seL4_SchedContext_Unbind(seL4_SchedContext service) {
    return error(make(INVOKES, "unbind %lu", service));
}

static void own_space(seL4_CNode root) {
    if (root != seL4_CapInitThreadCNode)
        fail("a CNode other than the thread's own space (seL4_CapInitThreadCNode) is not simulated here");
}

static const char *rights_text(seL4_CapRights_t rights, char *to) {
    char *at = to;
    const struct {
        seL4_Uint64 bit;
        char letter;
    } all[] = {{2, 'r'}, {1, 'w'}, {4, 'g'}, {8, 'p'}};
    for (size_t i = 0; i < 4; i++)
        if (rights.words[0] & all[i].bit)
            *at++ = all[i].letter;
    if (at == to)
        *at++ = '-';
    *at = 0;
    return to;
}

seL4_Error seL4_CNode_Copy(seL4_CNode service, seL4_Word to, seL4_Uint8 to_depth, seL4_CNode root, seL4_Word from, seL4_Uint8 from_depth, seL4_CapRights_t rights) {
    char text[5];
    own_space(service);
    own_space(root);
    return error(make(INVOKES, "copy %lu %d %lu %d %s", from, from_depth, to, to_depth, rights_text(rights, text)));
}

seL4_Error seL4_CNode_Mint(seL4_CNode service, seL4_Word to, seL4_Uint8 to_depth, seL4_CNode root, seL4_Word from, seL4_Uint8 from_depth, seL4_CapRights_t rights, seL4_Word badge) {
    char text[5];
    own_space(service);
    own_space(root);
    return error(make(INVOKES, "mint %lu %d %lu %d %s %lu", from, from_depth, to, to_depth, rights_text(rights, text), badge));
}

seL4_Error seL4_CNode_Move(seL4_CNode service, seL4_Word to, seL4_Uint8 to_depth, seL4_CNode root, seL4_Word from, seL4_Uint8 from_depth) {
    own_space(service);
    own_space(root);
    return error(make(INVOKES, "move %lu %d %lu %d", from, from_depth, to, to_depth));
}

seL4_Error seL4_CNode_Delete(seL4_CNode service, seL4_Word index, seL4_Uint8 depth) {
    own_space(service);
    return error(make(INVOKES, "delete %lu %d", index, depth));
}

seL4_Error seL4_CNode_CancelBadgedSends(seL4_CNode service, seL4_Word index, seL4_Uint8 depth) {
    own_space(service);
    if (depth != seL4_WordBits)
        fail("seL4_CNode_CancelBadgedSends is simulated at depth 64 alone");
    return error(make(INVOKES, "cancel %lu", index));
}

void seL4_DebugPutChar(char c) {
    fputc(c, stderr);
}

/* ---- traces, seeds and searches */

const char *sel4sim_trace(size_t *length) {
    if (length)
        *length = trace.length;
    return trace.bytes ? trace.bytes : "";
}

int sel4sim_save(const char *path) {
    FILE *to = fopen(path, "wb");
    if (!to)
        return -1;
    bool well = fwrite(sel4sim_trace(NULL), 1, trace.length, to) == trace.length;
    return fclose(to) == 0 && well ? 0 : -1;
}

/* Runs a test in a process of its own; says whether it returned. Its trace is ours then. */
static bool passes(void (*test)(uint64_t), uint64_t seed) {
    fflush(NULL);
    pid_t child = fork();
    if (child < 0)
        fail("no process can be started");
    if (!child) {
        is_child = true;
        test(seed);
        fflush(NULL);
        _exit(0);
    }
    int status = 0;
    while (waitpid(child, &status, 0) < 0) {
    }
    trace.length = 0;
    append(&trace, kept->trace, kept->length);
    return WIFEXITED(status) && !WEXITSTATUS(status);
}

static void begin_keeping(unsigned max) {
    if (!kept) {
        kept = mmap(NULL, sizeof *kept, PROT_READ | PROT_WRITE, MAP_SHARED | MAP_ANONYMOUS, -1, 0);
        if (kept == MAP_FAILED)
            fail("out of memory");
    }
    kept->max = max > CHOICES ? CHOICES : max;
    kept->forced = kept->count = kept->length = 0;
    kept->is_cut = false;
}

uint64_t sel4sim_seeds(void (*test)(uint64_t), uint64_t count) {
    begin_keeping(0);
    for (uint64_t seed = 1; seed <= count; seed++) {
        kept->length = 0;
        if (!passes(test, seed))
            return seed;
    }
    return 0;
}

/* The prefix of the next order: the last choice that has another is moved on. False where none
 * has. */
static bool next_order(void) {
    size_t at = kept->count;
    while (at && kept->chosen[at - 1] + 1 >= kept->of[at - 1])
        at--;
    if (!at)
        return false;
    kept->chosen[at - 1]++;
    kept->forced = at;
    return true;
}

struct sel4sim_search sel4sim_explore(void (*test)(uint64_t), unsigned max) {
    struct sel4sim_search found = {0, false, false};
    begin_keeping(max ? max : 1);
    do {
        kept->count = kept->length = 0;
        found.runs++;
        if (!passes(test, 0)) {
            found.failed = true;
            return found;
        }
    } while (next_order());
    found.whole = !kept->is_cut;
    return found;
}
