/* tool: the calls of mcs.h as commands, which read the standard input and write their text:
 *
 *   tool replay | steps | check | why | state | draw | compile | number | explore | search [STATES]
 *   tool pick [CORE]
 *   tool check_plan | why_plan | state_plan [LINE] | draw_plan
 *   tool explore_plan | search_plan [STATES]
 *
 * With `steps` each line is a call of mcs_step, and the text is what these add. With `pick` it is
 * the name of the thread that the core runs next (0 where none is named), or `-`. The exit status
 * is that of the call. A line that says why compile or explore has no text goes to standard error.
 */
#include "mcs.h"
#include <stdio.h>
#include <stdlib.h>
#include <string.h>

/* `number` is how many states are found at most, or the line of a plan, or a core. */
struct command {
    const char *name;
    uint64_t number;
};

static uint8_t *read_all(size_t *length) {
    size_t room = 1 << 16, n = 0, got;
    uint8_t *text = malloc(room);
    while (text && (got = fread(text + n, 1, room - n, stdin)) > 0) {
        n += got;
        if (n == room) {
            uint8_t *more = realloc(text, room *= 2);
            if (!more)
                free(text);
            text = more;
        }
    }
    *length = n;
    return text;
}

static int is(const struct command *command, const char *name) {
    return !strcmp(command->name, name);
}

/* Writes at most `room` bytes of the text of one call on a plan. */
static uint32_t fill_plan(const struct command *command, const uint8_t *text, size_t n, uint8_t *out, size_t room,
                          mcs_end *end) {
    if (is(command, "check_plan"))
        return mcs_check_plan(text, n, out, room, end);
    if (is(command, "why_plan"))
        return mcs_why_plan(text, n, out, room, end);
    if (is(command, "state_plan"))
        return mcs_state_plan(text, n, command->number, out, room, end);
    if (is(command, "draw_plan"))
        return mcs_draw_plan(text, n, out, room, end);
    if (is(command, "explore_plan"))
        return mcs_explore_plan(text, n, command->number, out, room, end);
    return mcs_search_plan(text, n, command->number, out, room, end);
}

/* Whether the call is one on a plan in its own words. */
static int is_of_plan(const struct command *command) {
    return strstr(command->name, "_plan") != NULL;
}

/* Writes at most `room` bytes of the text of one call; `line` is that of a step. */
static uint32_t fill(const struct command *command, const uint8_t *text, size_t n, const uint8_t *line, size_t m,
                     uint8_t *out, size_t room, mcs_end *end) {
    if (is_of_plan(command))
        return fill_plan(command, text, n, out, room, end);
    if (is(command, "steps"))
        return mcs_step(text, n, line, m, out, room, end);
    if (is(command, "check"))
        return mcs_check(text, n, out, room, end);
    if (is(command, "compile"))
        return mcs_compile(text, n, out, room, end);
    if (is(command, "explore"))
        return mcs_explore(text, n, command->number, out, room, end);
    if (is(command, "search"))
        return mcs_search(text, n, command->number, out, room, end);
    if (is(command, "number"))
        return mcs_number(text, n, out, room, end);
    if (is(command, "why"))
        return mcs_why(text, n, out, room, end);
    if (is(command, "state"))
        return mcs_state(text, n, out, room, end);
    if (is(command, "draw"))
        return mcs_draw(text, n, out, room, end);
    return mcs_replay(text, n, out, room, end);
}

/* Whether the text says why there is none. */
static int is_reason(const struct command *command, uint32_t status, const mcs_end *end) {
    int is_refused = status == MCS_REFUSED || status == MCS_BOOK_FULL;
    int is_other = end->fault == 14 || (end->fault == 13 && is_of_plan(command) && !is(command, "check_plan"));
    int has_none = is(command, "compile") || is(command, "explore") || is(command, "explore_plan");
    return is_refused && (has_none || is_other);
}

/* Writes the text of one call: once more where the first room did not do. Traces of short steps
 * are five to six times as long as their scripts, and memory that no call writes costs nothing. */
static uint32_t call(const struct command *command, const uint8_t *text, size_t n, const uint8_t *line, size_t m,
                     mcs_end *end) {
    size_t room = is(command, "steps") ? 1 << 12 : 16 * n + (1 << 16);
    for (;;) {
        uint8_t *out = malloc(room);
        if (!out)
            return MCS_NO_MEMORY;
        uint32_t status = fill(command, text, n, line, m, out, room, end);
        int is_whole = status == MCS_NO_MEMORY || end->length <= room;
        if (is_whole && status != MCS_NO_MEMORY)
            fwrite(out, 1, end->length, is_reason(command, status, end) ? stderr : stdout);
        free(out);
        if (is_whole)
            return status;
        room = end->length;
    }
}

/* Takes a script line by line. */
static uint32_t call_steps(const struct command *command, const uint8_t *script, size_t n, mcs_end *end) {
    uint32_t status = MCS_OK;
    for (size_t at = 0; at < n && !status;) {
        const uint8_t *newline = memchr(script + at, '\n', n - at);
        size_t m = newline ? (size_t)(newline - script) + 1 - at : n - at;
        status = call(command, script, at, script + at, m, end);
        at += m;
    }
    return status ? status : call(command, script, n, (const uint8_t *)"", 0, end);
}

/* Writes which thread a core runs next. */
static uint32_t call_pick(uint8_t core, const uint8_t *script, size_t n, mcs_end *end) {
    uint32_t thread = 0;
    uint32_t status = mcs_pick(script, n, core, &thread, end);
    if (status == MCS_OK && thread)
        printf("t%lu\n", (unsigned long)thread);
    else if (status == MCS_OK)
        puts("-");
    return status;
}

int main(int count, char **words) {
    struct command command = {count > 1 ? words[1] : "replay", count > 2 ? strtoull(words[2], NULL, 10) : 1000000};
    size_t n;
    uint8_t *text = read_all(&n);
    mcs_end end = {0, 0, 0};
    uint32_t status;
    if (!text)
        return MCS_NO_MEMORY;
    if (is(&command, "steps"))
        status = call_steps(&command, text, n, &end);
    else if (is(&command, "pick"))
        status = call_pick(count > 2 ? (uint8_t)command.number : 0, text, n, &end);
    else
        status = call(&command, text, n, NULL, 0, &end);
    if (status == MCS_REFUSED && (is(&command, "replay") || is(&command, "steps")))
        fprintf(stderr, "mcssim: line %llu: fault %llu\n", (unsigned long long)end.line, (unsigned long long)end.fault);
    free(text);
    return (int)status;
}
