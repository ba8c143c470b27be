/* Tests of entries as structs (mcs.h): the steps of scripts that are named, each as an entry and as
 * its line, leave the same; then entries that say no step, small buffers, and refused memory. Link
 * it with -Wl,--wrap=malloc -Wl,--wrap=realloc.
 *
 *   entries FILE.. */
#include "mcs.h"
#include <stdio.h>
#include <stdlib.h>
#include <string.h>

enum { ROOM = 1 << 16, RECORDS = 1056, WORDS = 160, LINES = 400, NEVER = -1 };

static int failed;
static int steps;
static long left = NEVER;

void *__real_malloc(size_t size);
void *__real_realloc(void *block, size_t size);
void *__wrap_malloc(size_t size);
void *__wrap_realloc(void *block, size_t size);

/* Whether this request for memory is granted. */
static int grants(void) {
    return left == NEVER || left-- > 0;
}

void *__wrap_malloc(size_t size) {
    if (grants())
        return __real_malloc(size);
    left = 0;
    return NULL;
}

void *__wrap_realloc(void *block, size_t size) {
    if (grants())
        return __real_realloc(block, size);
    left = 0;
    return NULL;
}

static void expect(int holds, const char *what, const char *where) {
    if (!holds) {
        printf("entries: %s (%s)\n", what, where);
        failed++;
    }
}

static const uint8_t *bytes(const char *text) {
    return (const uint8_t *)text;
}

/* ---- entries of lines */

static const char *const keys[] = {
    "",         "send",       "nbsend",   "call",         "recv",   "nbrecv", "wait",
    "nbwait",   "replyrecv",  "signal",   "setprio",      "suspend", "resume", "bindntfn",
    "unbindntfn", "bind",     "unbind",   "cancel",       "copy",   "mint",   "move",
    "delete",   "endpoint",   "notification", "reply",    "context", "nbsendrecv", "nbsendwait",
};

/* Returns the number of a word in a table; 0 where it is not there. */
static uint32_t number_of(const char *const *table, size_t count, const char *word) {
    for (uint32_t i = 1; i < count; i++)
        if (!strcmp(table[i], word))
            return i;
    return 0;
}

static uint64_t rights_of(const char *word) {
    uint64_t rights = 0;
    for (; *word; word++)
        rights += *word == 'w' ? 1 : *word == 'r' ? 2 : *word == 'g' ? 4 : *word == 'p' ? 8 : 0;
    return rights;
}

/* Splits a line at its spaces. */
static size_t split(char *line, char **words) {
    size_t n = 0;
    for (char *word = strtok(line, " "); word && n < WORDS; word = strtok(NULL, " "))
        words[n++] = word;
    return n;
}

/* Returns whether a line is a step, and its entry. */
static int read_entry(const char *line, size_t length, mcs_entry *entry) {
    char text[4200], *words[WORDS];
    if (length >= sizeof text || length == 0 || line[0] < '0' || line[0] > '9')
        return 0;
    memcpy(text, line, length);
    text[length] = 0;
    size_t n = split(text, words), at = 3;
    if (n < 4)
        return 0;
    memset(entry, 0, sizeof *entry);
    entry->core = (uint32_t)strtoul(words[0], NULL, 10);
    entry->thread = (uint32_t)strtoul(words[1] + 1, NULL, 10);
    if (!strcmp(words[2], "make"))
        at = 4;
    entry->key = number_of(keys, sizeof keys / sizeof *keys, words[at - 1]);
    for (; at < n; at++) {
        int has_rights = entry->key == MCS_COPY || entry->key == MCS_MINT;
        entry->words[entry->count] = has_rights && entry->count == 4 ? rights_of(words[at]) : strtoull(words[at], NULL, 10);
        entry->count++;
    }
    return 1;
}

/* ---- what a text says of an answer and of records */

static const char *const answers[] = {"", "done", "got", "heard", "empty", "waits", "refused"};

static const char *const facts[] = {
    "",      "slot", "turns", "joins", "parts", "sent",   "took",  "dropped", "holds", "homed",
    "prio",  "owes", "paid",  "void",  "raised", "heard", "tied",  "made",    "closed",
};

/* Returns the first name of a line that is a thread's, or that is none's, behind its kind. */
static void names_of(char **words, size_t n, mcs_record *record) {
    for (size_t i = 2; i < n && i < 6; i++) {
        char letter = words[i][0];
        int is_name = letter && strchr("ctenrs", letter) && words[i][1] >= '1' && words[i][1] <= '9';
        uint32_t serial = is_name ? (uint32_t)strtoul(words[i] + 1, NULL, 10) : 0;
        if (is_name && letter == 't' && !record->thread)
            record->thread = serial;
        else if (is_name && letter != 't' && !record->letter) {
            record->letter = (uint32_t)letter;
            record->object = serial;
        }
        if (record->kind == MCS_RECORD_SLOT)
            return;
    }
}

/* Compares an answer and records with the text of their step. */
static void compare(const char *text, size_t length, const mcs_answer *answer, const mcs_record *records, const char *where) {
    char *copy = malloc(length + 1), *words[WORDS];
    size_t told = 0;
    uint32_t kind = MCS_NO_ANSWER;
    memcpy(copy, text, length);
    copy[length] = 0;
    for (char *line = copy, *next; *line; line = next) {
        char *newline = strchr(line, '\n');
        *newline = 0;
        next = newline + 1;
        if (line[0] != '=' && line[0] != '+')
            continue;
        int is_answer = line[0] == '=';
        size_t n = split(line, words);
        if (is_answer) {
            kind = number_of(answers, sizeof answers / sizeof *answers, words[1]);
            expect(answer->count == n - 2, "how many words an answer has", where);
            for (size_t i = 2; i < n; i++)
                expect(answer->words[i - 2] == strtoull(words[i], NULL, 10), "a word of an answer", where);
            continue;
        }
        mcs_record wanted = {number_of(facts, sizeof facts / sizeof *facts, words[1]), 0, 0, 0};
        names_of(words, n, &wanted);
        expect(told < RECORDS && !memcmp(&records[told], &wanted, sizeof wanted), "a record", words[1]);
        told++;
    }
    expect(answer->kind == kind, "the kind of an answer", where);
    expect(answer->records == told, "how many records a step brought", where);
    free(copy);
}

/* ---- scripts */

/* Takes a step of a script by its line and by its entry. */
static void take_both(const char *script, size_t at, size_t length, const char *where) {
    static uint8_t wanted[ROOM], got[ROOM], line[ROOM];
    static mcs_record records[RECORDS];
    mcs_entry entry;
    mcs_answer answer;
    mcs_end by_line = {9, 9, 9}, by_entry = {9, 9, 9}, spelled = {9, 9, 9};
    if (!read_entry(script + at, length, &entry))
        return;
    steps++;
    uint32_t status = mcs_step(bytes(script), at, bytes(script) + at, length + 1, wanted, ROOM, &by_line);
    uint32_t other = mcs_step_entry(bytes(script), at, &entry, &answer, records, RECORDS, got, ROOM, &by_entry);
    expect(status == other && !memcmp(&by_line, &by_entry, sizeof by_line), "how a step ends", where);
    expect(by_line.length <= ROOM && !memcmp(wanted, got, by_line.length), "the text of a step", where);
    other = mcs_step_line(&entry, line, ROOM, &spelled);
    expect(other == MCS_OK && spelled.length == length + 1 && !memcmp(line, script + at, length + 1), "the line of a step", where);
    compare((const char *)got, by_entry.length, &answer, records, where);
}

/* The pick of each core: it may enter there, and where there is none, no thread may. */
static void picks(const char *script, size_t length, const char *where) {
    static uint8_t out[ROOM];
    for (uint8_t core = 0; core < 2; core++) {
        uint32_t thread = 9999;
        mcs_end end = {9, 9, 9};
        if (mcs_pick(bytes(script), length, core, &thread, &end) != MCS_OK)
            return;
        expect(end.length == 0 && !end.line && !end.fault, "the end of a pick", where);
        for (uint32_t t = 1; t <= 4; t++) {
            mcs_entry entry = {core, t, MCS_NBWAIT, 1, {~(uint64_t)0}};
            mcs_answer answer;
            uint32_t status = mcs_step_entry(bytes(script), length, &entry, &answer, NULL, 0, out, ROOM, &end);
            if (t == thread)
                expect(status == MCS_OK && answer.kind != MCS_NO_ANSWER, "a pick may not enter", where);
            if (thread == 0 && status == MCS_OK)
                expect(answer.kind == MCS_NO_ANSWER, "a thread may enter, and none is picked", where);
        }
    }
}

/* All steps of a script. */
static int take_script(const char *name) {
    static char script[1 << 20];
    FILE *file = fopen(name, "rb");
    if (!file)
        return 0;
    size_t n = fread(script, 1, sizeof script - 1, file), lines = 0;
    fclose(file);
    for (size_t at = 0, length; at < n; at += length + 1) {
        const char *newline = memchr(script + at, '\n', n - at);
        if (!newline || lines++ == LINES)
            break;
        length = (size_t)(newline - script) - at;
        take_both(script, at, length, name);
    }
    picks(script, n, name);
    return 1;
}

/* ---- entries that say no step, small buffers, refused memory */

static const char boot[] =
    "cores 1\ncnode 1\ncnode 2\nendpoint\nreply\ncontext 0\ncontext 0\n"
    "thread 1 255 c1 63 0 run s1\nthread 2 255 c2 62 0 run s2\n"
    "slot c1 1 e1 wp 42\nslot c2 1 e1 r 0\nslot c2 2 r1\n0 t2 recv 1 2\n";

static const mcs_entry call = {0, 1, MCS_CALL, 7, {1, 7, 1, 2, 3, 4, 5}};

static void no_steps(void) {
    static const struct {
        mcs_entry entry;
        uint64_t fault;
    } all[] = {
        {{0, 1, 0, 1, {1}}, 15},
        {{0, 1, 28, 1, {1}}, 15},
        {{0, 1, MCS_SEND, 1, {1}}, 15},
        {{0, 1, MCS_SEND, 125, {1}}, 15},
        {{0, 1, MCS_RECV, 3, {1}}, 15},
        {{0, 1, MCS_WAIT, 0, {1}}, 15},
        {{0, 1, MCS_MINT, 5, {1}}, 15},
        {{16, 1, MCS_WAIT, 1, {1}}, 16},
        {{0, 0, MCS_WAIT, 1, {1}}, 16},
        {{0, 257, MCS_WAIT, 1, {1}}, 16},
        {{16, 0, 0, 0, {1}}, 16},
        {{0, 1, MCS_SEND, 2, {1, (uint64_t)1 << 52}}, 16},
        {{0, 1, MCS_SEND, 123, {1}}, 16},
        {{0, 1, MCS_SETPRIO, 3, {1, 2, 256}}, 16},
        {{0, 1, MCS_DELETE, 2, {1, 256}}, 16},
        {{0, 1, MCS_MOVE, 4, {1, 64, 2, 256}}, 16},
        {{0, 1, MCS_COPY, 5, {1, 64, 2, 64, 16}}, 16},
    };
    for (size_t i = 0; i < sizeof all / sizeof *all; i++) {
        char where[32];
        uint8_t out[64];
        mcs_record records[4] = {{7, 7, 7, 7}};
        mcs_answer answer = {9, 9, 9, {9}};
        mcs_end end = {9, 9, 9};
        snprintf(where, sizeof where, "entry %zu", i);
        memset(out, 'x', sizeof out);
        uint32_t status = mcs_step_line(&all[i].entry, out, sizeof out, &end);
        expect(status == MCS_REFUSED && !end.length && !end.line && end.fault == all[i].fault, "an entry's fault", where);
        end = (mcs_end){9, 9, 9};
        status = mcs_step_entry(bytes(boot), sizeof boot - 1, &all[i].entry, &answer, records, 4, out, sizeof out, &end);
        expect(status == MCS_REFUSED && !end.length && !end.line && end.fault == all[i].fault, "a step's fault", where);
        expect(out[0] == 'x' && !memcmp(out, out + 1, sizeof out - 1) && records[0].kind == 7, "what is written for no step", where);
        expect(answer.kind == MCS_NO_ANSWER && !answer.count && !answer.records, "the answer of no step", where);
    }
}

/* The greatest entry of each kind of message: 120 words. */
static void full_message(void) {
    static uint8_t out[ROOM];
    mcs_entry entry = {0, 1, MCS_NBSENDRECV, MCS_ENTRY_WORDS, {0}};
    mcs_end end = {9, 9, 9};
    for (size_t i = 0; i < MCS_ENTRY_WORDS; i++)
        entry.words[i] = ~(uint64_t)0;
    entry.words[3] = ((uint64_t)1 << 52) - 1;
    uint32_t status = mcs_step_line(&entry, out, ROOM, &end);
    expect(status == MCS_OK && !memcmp(out, "0 t1 nbsendrecv 18446744073709551615 ", 37), "a full message", "line");
    mcs_end second = {9, 9, 9};
    status = mcs_step(bytes(boot), sizeof boot - 1, out, end.length, out, 0, &second);
    expect(status == MCS_OK && second.length > 0, "a full message", "step");
}

/* Each room for records and for the text: filled to its end, and not a byte further. */
static void rooms(void) {
    static uint8_t whole[ROOM], out[ROOM];
    mcs_record all[RECORDS], some[RECORDS];
    mcs_answer answer;
    mcs_end end;
    mcs_step_entry(bytes(boot), sizeof boot - 1, &call, &answer, all, RECORDS, whole, ROOM, &end);
    expect(answer.records == 5, "the records of a call", "rooms");
    for (size_t room = 0; room <= end.length + 2; room++) {
        size_t n = room < end.length ? room : end.length, m = room < answer.records ? room : answer.records;
        mcs_end again = {9, 9, 9};
        mcs_answer other;
        memset(out, 'x', ROOM);
        memset(some, 0xee, sizeof some);
        mcs_step_entry(bytes(boot), sizeof boot - 1, &call, &other, some, room < RECORDS ? room : RECORDS, out, room, &again);
        expect(!memcmp(out, whole, n) && out[n] == 'x' && again.length == end.length, "the text in less room", "rooms");
        expect(!memcmp(some, all, m * sizeof *some) && some[m].kind == 0xeeeeeeee, "the records in less room", "rooms");
        expect(other.kind == MCS_WAITS && other.records == answer.records, "the answer in less room", "rooms");
    }
}

/* Each request for memory refused in turn: 6, and nothing is written. */
static void refused(int what) {
    for (long n = 0; n < 10000; n++) {
        static uint8_t out[ROOM];
        mcs_record records[4] = {{7, 7, 7, 7}};
        mcs_answer answer = {9, 9, 9, {9}};
        mcs_end end = {9, 9, 9};
        uint32_t status, thread = 9;
        memset(out, 'x', sizeof out);
        left = n;
        if (what == 0)
            status = mcs_step_line(&call, out, ROOM, &end);
        else if (what == 1)
            status = mcs_step_entry(bytes(boot), sizeof boot - 1, &call, &answer, records, 4, out, ROOM, &end);
        else
            status = mcs_pick(bytes(boot), sizeof boot - 1, 0, &thread, &end);
        left = NEVER;
        if (status == MCS_OK) {
            expect(n > 0 && (what != 2 || thread == 1), "no memory is needed", "refused");
            return;
        }
        expect(status == MCS_NO_MEMORY && end.length == 9 && end.line == 9 && end.fault == 9, "refused memory's end", "refused");
        expect(out[0] == 'x' && !memcmp(out, out + 1, ROOM - 1), "refused memory's bytes", "refused");
        expect(answer.kind == 9 && answer.records == 9 && records[0].kind == 7 && thread == 9, "refused memory's answer", "refused");
    }
    expect(0, "memory is always refused", "refused");
}

/* Picks after faults, and of a core that no context is of. */
static void pick_ends(void) {
    uint32_t thread = 9;
    mcs_end end = {9, 9, 9};
    expect(mcs_pick(bytes(""), 0, 0, &thread, &end) == MCS_REFUSED && end.line == 1 && end.fault == 1 && !thread, "no boot", "pick");
    expect(mcs_pick(bytes("cores 1\n"), 8, 0, &thread, &end) == MCS_OK && !thread, "no thread", "pick");
    expect(mcs_pick(bytes(boot), sizeof boot - 1, 255, &thread, &end) == MCS_OK && !thread, "another core", "pick");
    expect(mcs_pick(bytes(boot), strlen(boot) - 14, 0, &thread, &end) == MCS_OK && thread == 2, "by priority", "pick");
}

int main(int count, char **names) {
    for (int i = 1; i < count; i++)
        expect(take_script(names[i]), "the file is not there", names[i]);
    no_steps();
    full_message();
    rooms();
    for (int what = 0; what < 3; what++)
        refused(what);
    pick_ends();
    if (!failed)
        printf("entries: as wanted, with %d steps of %d scripts\n", steps, count - 1);
    return failed != 0;
}
