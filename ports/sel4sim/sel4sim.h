/* sel4sim.h: seL4 threads in C, as coroutines over the proved simulator (ports/README.md).
 *
 * A test gives a boot, and the code of its threads; sel4sim_run lets them run. A turn is: the code
 * of one thread to its next call of the kernel, and that call. Between two turns the test's seed,
 * its picker or a search says which thread is next. Who may run, who is blocked and what a call
 * brings is read from the answers and records of the kernel. There is one world at a time, of one
 * host thread; sel4sim_boot begins it anew. */
#ifndef SEL4SIM_H
#define SEL4SIM_H

#include <sel4/sel4.h>
#include <stdio.h>

/* How a run ends. */
enum {
    SEL4SIM_DONE = 0,    /* each thread ended, or is where sel4sim_serves lets it be */
    SEL4SIM_STUCK = 1,   /* none may run, and some thread is neither */
    SEL4SIM_FAULTED = 2, /* a call was refused that has no error to return */
    SEL4SIM_LIMIT = 3,   /* the limit of calls was reached */
    SEL4SIM_REFUSED = 4  /* a line of the boot is refused, or memory */
};

/* Begins a world anew, by the boot lines of a script (docs/FORMS.md): nothing runs yet. */
void sel4sim_boot(const char *script);

/* Says what the thread of this serial runs. A thread with no code never enters. */
void sel4sim_thread(int serial, void (*code)(void *), void *with);

/* Says that a thread may be left at the end of a run where it waits for a message or a signal, as
 * servers do, or inactive. */
void sel4sim_serves(int serial);

/* Says how many calls of the kernel a run may have; 10,000 if nothing is said. */
void sel4sim_limit(unsigned long calls);

/* Says whether only threads of the highest priority on their core are picked. If not, any thread
 * that may run is: one of higher priority may have used up its budget. */
void sel4sim_by_priority(bool only_highest);

/* Says who picks, in the place of the seed: it gets the serials of the threads that may run, by
 * priority and then by serial, and returns the place of one. */
void sel4sim_picker(size_t (*pick)(const int *serials, size_t count));

/* Runs until no thread may run. Seed 0 picks the first by priority and then by serial. */
int sel4sim_run(uint64_t seed);

/* After a run: how many threads are stuck, and whether this one is. */
int sel4sim_stuck(void);
bool sel4sim_is_stuck(int serial);
/* Whether the code of a thread returned, and by which number a call of it was refused, else 0. */
bool sel4sim_ended(int serial);
int sel4sim_fault(int serial);

/* Whether the records of the kernel say so, now: a question of a script without its `#? `, as
 * "t2 waits e1.recv" or "s1 chain r1" (`mcslab forms questions` lists all). mcs_check answers, which
 * is proved. A text that asks nothing ends the test. */
bool sel4sim_says(const char *question);

/* Returns the thread that a core runs next, by the rule of the kernel, as its serial; 0 where there
 * is none. It asks mcs_pick, which is proved. A thread whose code has ended may still be picked: the kernel
 * knows only calls. */
int sel4sim_next(uint8_t core);

/* In a thread's code: its serial, and a place where another may go on without a call. */
int sel4sim_current(void);
void sel4sim_point(void);

/* The trace so far, which is a script: `mcssim replay` gives it back. sel4sim_save writes it to a
 * file, and returns 0, or -1 where that failed. */
const char *sel4sim_trace(size_t *length);
int sel4sim_save(const char *path);

/* Runs a test with the seeds 1 to `count`, each in a process of its own, so that each begins with
 * fresh globals. It fails where it does not return: by assert, exit or a signal. Returns the first
 * seed that fails, or 0. sel4sim_trace and sel4sim_save then have its trace. */
uint64_t sel4sim_seeds(void (*test)(uint64_t seed), uint64_t count);

/* What a search came to. */
struct sel4sim_search {
    unsigned long runs; /* how many orders were run */
    bool failed;        /* the last of them failed, and its trace is kept */
    bool whole;         /* each order was run: none had more than `max` choices */
};

/* Runs a test over all orders: each choice among several threads up to the first `max` of a run;
 * later choices take the first. Processes as for sel4sim_seeds; stops at the first that fails. */
struct sel4sim_search sel4sim_explore(void (*test)(uint64_t seed), unsigned max);

#endif
