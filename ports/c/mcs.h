/* mcs.h: the simulator as a library for C.
 *
 * Bytes in, bytes out: no call keeps anything, none calls back, and there is no global state, so
 * several runs at once need no lock. Memory is taken by malloc and given back before a call
 * returns. The functions are proved (ports/README.md says what), this header is not: it has to say
 * what crates/mcs_c says.
 *
 * Each call writes as much of its text as there is room for at `out`, and how it ended at `end`. A
 * buffer that is too small is filled to its end, and `end->length` is what the whole text needs:
 * give so much room, and call again. `out` may be NULL only where `room` is 0. `out` and `end` lie
 * in no memory that the call reads.
 *
 * Each call returns a number of this table:
 *
 *   0 MCS_OK         done, and all that was wanted holds
 *   1 MCS_UNMET      done; something that is wanted does not hold (mcs_check, mcs_explore,
 *                    mcs_search), or something is stuck (mcs_why); so for plans
 *   2 MCS_REFUSED    a line is refused: end->line says which, end->fault why
 *   3 MCS_STOPPED    the budget ended the search, and nothing failed so far (mcs_explore,
 *                    mcs_search; so for plans)
 *   5 MCS_BOOK_FULL  the book is full at a step
 *   6 MCS_NO_MEMORY  memory is refused: nothing is written, at `out`, at `end` or elsewhere
 *   7 MCS_WRONG      never; it would be a fault of the library
 *
 * end->line and end->fault are 0 but after 2. The fault is one of these numbers:
 *
 *   1 to 9  of a line of a script, as docs/FORMS.md has them (K)
 *   10      a line has the form of no question (#?) and of no name (#@)
 *   11      a question to all orders (#!) is refused
 *   12      a line of a program is refused
 *   13      a line of a plan is refused
 *   14      a plan has users where steps are wanted, or steps where users are
 *   15      an entry has no key, or another number of words than its form
 *   16      a number of an entry is out of its range
 */
#ifndef MCS_H
#define MCS_H

#include <stddef.h>
#include <stdint.h>

#ifdef __cplusplus
extern "C" {
#endif

enum {
    MCS_OK = 0,
    MCS_UNMET = 1,
    MCS_REFUSED = 2,
    MCS_STOPPED = 3,
    MCS_BOOK_FULL = 5,
    MCS_NO_MEMORY = 6,
    MCS_WRONG = 7
};

typedef struct {
    size_t length;  /* of the whole text */
    uint64_t line;  /* that is refused, from 1 on; else 0 */
    uint64_t fault; /* why it is refused, 1 to 16; else 0 */
} mcs_end;

/* The keys of entries, with the words of each: the numbers after the key, in the order of the form
 * (docs/FORMS.md). Rights are a sum of 1 Write, 2 Read, 4 Grant, 8 GrantReply. A message is a label
 * and up to 120 words. */
enum {
    MCS_SEND = 1,         /* address, message */
    MCS_NBSEND,           /* address, message */
    MCS_CALL,             /* address, message */
    MCS_RECV,             /* address, reply */
    MCS_NBRECV,           /* address, reply */
    MCS_WAIT,             /* address */
    MCS_NBWAIT,           /* address */
    MCS_REPLYRECV,        /* address, reply, message */
    MCS_SIGNAL,           /* address */
    MCS_SETPRIO,          /* thread, authority, priority */
    MCS_SUSPEND,          /* thread */
    MCS_RESUME,           /* thread */
    MCS_BINDNTFN,         /* thread, notification */
    MCS_UNBINDNTFN,       /* thread */
    MCS_BIND,             /* context, thread or notification */
    MCS_UNBIND,           /* context */
    MCS_CANCEL,           /* endpoint */
    MCS_COPY,             /* index, depth, index, depth, rights */
    MCS_MINT,             /* index, depth, index, depth, rights, badge */
    MCS_MOVE,             /* index, depth, index, depth */
    MCS_DELETE,           /* index, depth */
    MCS_MAKE_ENDPOINT,    /* index, depth */
    MCS_MAKE_NOTIFICATION, /* index, depth */
    MCS_MAKE_REPLY,       /* index, depth */
    MCS_MAKE_CONTEXT,     /* index, depth */
    MCS_NBSENDRECV,       /* address, source, reply, message */
    MCS_NBSENDWAIT        /* address, source, message */
};

enum { MCS_ENTRY_WORDS = 124, MCS_ANSWER_WORDS = 122 };

typedef struct {
    uint32_t core;   /* 0 to 15 */
    uint32_t thread; /* its serial, 1 to 256 */
    uint32_t key;
    uint32_t count; /* of the words that count */
    uint64_t words[MCS_ENTRY_WORDS];
} mcs_entry;

/* The kinds of answers, with the words of each. */
enum {
    MCS_NO_ANSWER = 0, /* the step was skipped, or is none */
    MCS_DONE,
    MCS_GOT,   /* badge, label, words */
    MCS_HEARD, /* word */
    MCS_EMPTY,
    MCS_WAITS,
    MCS_REFUSAL /* K of docs/FORMS.md */
};

typedef struct {
    uint32_t kind;
    uint32_t count;   /* of the words that count */
    size_t records;   /* that the step brought, even if there was no room for all of them */
    uint64_t words[MCS_ANSWER_WORDS];
} mcs_answer;

/* The kinds of records, in the order of docs/FORMS.md. */
enum {
    MCS_RECORD_SLOT = 1, /* object: the CNode */
    MCS_RECORD_TURNS,
    MCS_RECORD_JOINS, /* object: that of the queue */
    MCS_RECORD_PARTS, /* object: that of the queue */
    MCS_RECORD_SENT,  /* thread: the sender; object: the endpoint */
    MCS_RECORD_TOOK,
    MCS_RECORD_DROPPED,
    MCS_RECORD_HOLDS, /* object: the context */
    MCS_RECORD_HOMED, /* object: the context */
    MCS_RECORD_PRIO,
    MCS_RECORD_OWES,   /* thread: the caller; object: the reply object */
    MCS_RECORD_PAID,   /* thread: the caller; object: the reply object */
    MCS_RECORD_VOID,   /* thread: the caller; object: the reply object */
    MCS_RECORD_RAISED, /* object: the notification */
    MCS_RECORD_HEARD,  /* object: the notification */
    MCS_RECORD_TIED,   /* object: the notification */
    MCS_RECORD_MADE,   /* object: this */
    MCS_RECORD_CLOSED  /* object: this */
};

typedef struct {
    uint32_t kind;
    uint32_t thread; /* the serial of its thread; 0 if it names none */
    uint32_t letter; /* of its object's name, as 'e'; 0 if it names none */
    uint32_t object; /* the serial of that object; 0 if it names none */
} mcs_record;

/* Replays a script, as `mcssim replay` does. The text is its trace: the boot, and each step with
 * its answer and its records. After 2 and 5 it is the trace of the steps before. */
uint32_t mcs_replay(const uint8_t *script, size_t script_length,
                    uint8_t *out, size_t room, mcs_end *end);

/* Takes a line more, with its newline, after a script whose end has not come. The text is what the
 * line adds to the trace: nothing for a line of the boot, a comment, or a step that is skipped;
 * after the first step also the boot. A line of no bytes is the end of the input. The script is
 * replayed for it, so that a run of n steps costs the square of n. A fault of the script before the
 * line is that of the call. `line` may also hold several lines, or part of one. */
uint32_t mcs_step(const uint8_t *script, size_t script_length,
                  const uint8_t *line, size_t line_length,
                  uint8_t *out, size_t room, mcs_end *end);

/* Writes the line of the step that an entry says, with its newline, as mcs_step takes it. Where an
 * entry says no step, the text is empty, and the call ends with 2 and the fault 15 or 16 (end->line
 * is 0). Tested first are the core and the thread, then the form, and then the other numbers. */
uint32_t mcs_step_line(const mcs_entry *entry,
                       uint8_t *out, size_t room, mcs_end *end);

/* Does what mcs_step does of the line of an entry, and writes its answer, and its records as far as
 * there is room for so many. A step that is skipped brings no records, and has the answer
 * MCS_NO_ANSWER; so has one for which the call ends with 2 or 5. */
uint32_t mcs_step_entry(const uint8_t *script, size_t script_length, const mcs_entry *entry,
                        mcs_answer *answer, mcs_record *records, size_t record_room,
                        uint8_t *out, size_t room, mcs_end *end);

/* Replays a script, and writes the serial of the thread that a core runs next: of the threads that
 * may enter there one of the greatest priority, and of those the one of the lowest serial; 0 where
 * there is none. It ends as mcs_replay, with no text; after 2 and 5 the thread is that after the
 * steps before. */
uint32_t mcs_pick(const uint8_t *script, size_t script_length, uint8_t core,
                  uint32_t *thread, mcs_end *end);

/* Checks what a script says of its steps, as `mcslab check` does: 0 where all holds, 1 where
 * something does not. The text is TAP: a verdict for each line that says something, and how many
 * there are. After 2 and 5 it ends with a line `Bail out!`, which says why. */
uint32_t mcs_check(const uint8_t *script, size_t script_length,
                   uint8_t *out, size_t room, mcs_end *end);

/* Makes a script of a plan, as `mcslab compile` does. The text is the script; after 2 it is a line
 * that says what is wrong with the line of the plan. */
uint32_t mcs_compile(const uint8_t *plan, size_t plan_length,
                     uint8_t *out, size_t room, mcs_end *end);

/* Goes through all orders of the users of a script, as `mcslab explore` does, and finds no more
 * than so many states: 0 where all that is asked holds in all orders, 1 where something fails, 3
 * where the budget ended the search before. The text is the report; after 2 and 5 it is a line that
 * says why there is none. */
uint32_t mcs_explore(const uint8_t *script, size_t script_length, uint64_t states,
                     uint8_t *out, size_t room, mcs_end *end);

/* Does the same, and writes behind the report the shortest scripts of steps to each kind of end, to
 * threads that are stuck, and to what a question asks: each behind a line `== NAME`, as no line of a
 * script or of a report begins. */
uint32_t mcs_search(const uint8_t *script, size_t script_length, uint64_t states,
                    uint8_t *out, size_t room, mcs_end *end);

/* Numbers the lines of the script of a plan. The text has for each of its lines the number of the
 * line of the plan of which it came, in a line of its own; after 2 it is that of mcs_compile. */
uint32_t mcs_number(const uint8_t *plan, size_t plan_length,
                    uint8_t *out, size_t room, mcs_end *end);

/* Explains each step of a script that did nothing, and what is stuck at its end, as `mcslab why`
 * does: 0 where nothing is stuck, 1 where something is. */
uint32_t mcs_why(const uint8_t *script, size_t script_length,
                 uint8_t *out, size_t room, mcs_end *end);

/* Writes the state at the end of a script, as `mcslab state --json` does. */
uint32_t mcs_state(const uint8_t *script, size_t script_length,
                   uint8_t *out, size_t room, mcs_end *end);

/* Draws a script, as `mcslab draw` does. The text is SVG; a script without a boot has none. */
uint32_t mcs_draw(const uint8_t *script, size_t script_length,
                  uint8_t *out, size_t room, mcs_end *end);

/* The same of a plan, in its own words and lines, as mcslab does with a file NAME.plan: each is
 * mcs_compile, the call of the script, and the text with the plan's names, steps and lines;
 * end->line is a line of the plan. Where no script comes of the plan, the text is that of
 * mcs_compile, for mcs_check_plan after `Bail out! `. */
uint32_t mcs_check_plan(const uint8_t *plan, size_t plan_length,
                        uint8_t *out, size_t room, mcs_end *end);

uint32_t mcs_why_plan(const uint8_t *plan, size_t plan_length,
                      uint8_t *out, size_t room, mcs_end *end);

/* Writes the state after a line of the plan, as `mcslab state --json --at LINE` does; after its
 * last one where the line is 0 or none of the plan's. JSON has the ids of the script. */
uint32_t mcs_state_plan(const uint8_t *plan, size_t plan_length, uint64_t line,
                        uint8_t *out, size_t room, mcs_end *end);

uint32_t mcs_draw_plan(const uint8_t *plan, size_t plan_length,
                       uint8_t *out, size_t room, mcs_end *end);

uint32_t mcs_explore_plan(const uint8_t *plan, size_t plan_length, uint64_t states,
                          uint8_t *out, size_t room, mcs_end *end);

/* The report has the plan's words; the scripts behind it are scripts. */
uint32_t mcs_search_plan(const uint8_t *plan, size_t plan_length, uint64_t states,
                         uint8_t *out, size_t room, mcs_end *end);

#ifdef __cplusplus
}
#endif

#endif
