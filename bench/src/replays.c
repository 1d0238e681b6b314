/* A recorded day replayed line by line, beside the same events as calls made directly and the program `replay`. */
#include "bench.h"
#include "splicebell.h"

#include <fcntl.h>
#include <spawn.h>
#include <stdio.h>
#include <stdlib.h>
#include <string.h>
#include <sys/wait.h>
#include <unistd.h>

enum { MALFORMED, WRITE, FAIL, REPAIR, READ, DAY }; /* the kinds of events have the numbers that their lines have */

/* The day: 3 of 4 events write and one reads, 8 bytes (half of them), 64 (a quarter), 512 or 4,096 (an eighth each), at
 * drawn offsets. Every 2,500 events a drawn target fails, and 300 events later it is repaired; so most of the day is
 * played with K failures repaired, after which a failure is refused. Of one kind there are fewer events, since 100,000
 * writes of 4,096 bytes would be a text of 821 MB. */
enum { EVENTS = 100000, OF_ONE_KIND = 10000, FAILS_EVERY = 2500, FAILS_AT = 1250, REPAIRED_AFTER = 300 };
static const size_t day_lengths[] = {8, 8, 8, 8, 64, 64, 512, 4096};

/* The longest answer of the largest pool, twice: what waits is dropped, as the program writes it, when half is full. */
enum { LONGEST_ANSWER = 24 + 2 * 32768, ANSWERS = 2 * LONGEST_ANSWER };

struct event {
    int kind;
    uint64_t offset; /* of a failure, the target */
    size_t length;
    const uint8_t *bytes; /* of a write */
};

struct trace {
    splicebell_layout y;
    splicebell_numbers m;
    struct event *events;
    size_t count;
    uint8_t *bytes, *text; /* of all writes, one after the other; and the lines, from the first on */
    size_t text_len;
    FILE *file; /* with the same lines, where there is a program to read them */
    uint8_t *image, *answers, *out;
    splicebell_record r;
};

static const struct mix {
    const char *what;
    int kind;
    size_t length;
} mixes[] = {
    {"the day", DAY, 0},
    {"writes of 64 bytes", WRITE, 64},
    {"writes of 4,096 bytes", WRITE, 4096},
    {"reads of 64 bytes", READ, 64},
    {"reads of 4,096 bytes", READ, 4096},
    {"failures, refused", FAIL, 0},
    {"malformed lines, of 64 bytes", MALFORMED, 64},
};

/* ---- events, and their lines */

static int day_kind(size_t i, uint64_t *state)
{
    if (i % FAILS_EVERY == FAILS_AT)
        return FAIL;
    if (i % FAILS_EVERY == FAILS_AT + REPAIRED_AFTER)
        return REPAIR;
    return drawn(state) % 4 == 0 ? READ : WRITE;
}

static struct event drawn_event(const struct trace *t, const struct mix *mix, size_t i, uint64_t *state)
{
    struct event e = {mix->kind, 0, mix->length, NULL};
    if (mix->kind == DAY) {
        e.kind = day_kind(i, state);
        e.length = day_lengths[drawn(state) % (sizeof day_lengths / sizeof *day_lengths)];
    }
    if (e.kind == REPAIR)
        e.length = 0;
    else if (e.kind == FAIL)
        e = (struct event){FAIL, mix->kind == DAY ? drawn(state) % t->y.p : 255, 0, NULL}; /* 255 is no target */
    else
        e.offset = drawn(state) % (t->m.capacity - e.length + 1);
    return e;
}

static bool has_bytes(const struct event *e)
{
    return e->kind == WRITE || e->kind == MALFORMED;
}

static char *put_hex(char *at, const uint8_t *bytes, size_t length)
{
    static const char digits[] = "0123456789abcdef";
    for (size_t i = 0; i < length; i++) {
        *at++ = digits[bytes[i] / 16];
        *at++ = digits[bytes[i] % 16];
    }
    return at;
}

/* A malformed line is a write's whose last digit is in upper case. */
static char *put_line(char *at, const struct event *e)
{
    unsigned long long offset = e->offset, length = e->length;
    if (e->kind == FAIL)
        return at + sprintf(at, "02 %02llx\n", offset);
    if (e->kind == REPAIR)
        return at + sprintf(at, "03\n");
    if (e->kind == READ)
        return at + sprintf(at, "04 %016llx %016llx\n", offset, length);
    at += sprintf(at, "01 %016llx ", offset);
    at = put_hex(at, e->bytes, e->length);
    if (e->kind == MALFORMED)
        at[-1] = 'A';
    *at++ = '\n';
    return at;
}

static void draw_events(struct trace *t, const struct mix *mix)
{
    uint64_t state = 13;
    size_t total = 0, at = 0;
    t->events = room(t->count * sizeof *t->events);
    for (size_t i = 0; i < t->count; i++) {
        t->events[i] = drawn_event(t, mix, i, &state);
        total += has_bytes(&t->events[i]) ? t->events[i].length : 0;
    }
    t->bytes = room(total);
    fill(t->bytes, total, 17);
    for (size_t i = 0; i < t->count; i++)
        if (has_bytes(&t->events[i])) {
            t->events[i].bytes = t->bytes + at;
            at += t->events[i].length;
        }
    t->text = room(2 * total + 64 * (t->count + 1)); /* no line has 64 characters beside its bytes */
}

static void write_lines(struct trace *t)
{
    char *at = (char *)t->text;
    at += sprintf(at, "%02x %02x %02x %04x %06x %016llx\n", (int)t->y.n, (int)t->y.k, (int)t->y.p, (int)t->y.u,
                  (int)t->y.t, (unsigned long long)t->y.cookie);
    for (size_t i = 0; i < t->count; i++)
        at = put_line(at, &t->events[i]);
    t->text_len = (size_t)(at - (char *)t->text);
}

static size_t events_of(const struct mix *mix)
{
    return options.emulated || mix->kind != DAY ? OF_ONE_KIND : EVENTS;
}

static struct trace trace_of(splicebell_layout y, const struct mix *mix)
{
    struct trace t = {.y = y, .m = splicebell_measure(y).numbers};
    must(t.m.image > 0 && t.m.image <= 32768, "a pool that a replay takes");
    t.count = events_of(mix);
    draw_events(&t, mix);
    write_lines(&t);
    t.image = room(t.m.image);
    t.answers = room(ANSWERS);
    t.out = room(t.m.capacity);
    return t;
}

static void trace_free(struct trace *t)
{
    free(t->events);
    free(t->bytes);
    free(t->text);
    free(t->image);
    free(t->answers);
    free(t->out);
    if (t->file)
        fclose(t->file);
}

/* ---- the events played, from a pool of zeros */

static void begin(struct trace *t)
{
    memset(t->image, 0, t->m.image);
    t->r = (splicebell_record){0};
}

static size_t line_length(const struct trace *t, const uint8_t *line)
{
    const uint8_t *newline = memchr(line, '\n', (size_t)(t->text + t->text_len - line));
    return (size_t)(newline - line) + 1;
}

/* How long the answer is, which is laid to that place of the answers. */
static size_t play(struct trace *t, const uint8_t *line, size_t length, size_t waiting)
{
    splicebell_played p = splicebell_replay_line(t->y, t->r, t->image, t->m.image, line, length, t->answers + waiting,
                                                 ANSWERS - waiting);
    must(p.refusal == 0, "room for an answer");
    t->r = p.record;
    return p.length;
}

static void replay(void *context)
{
    struct trace *t = context;
    const uint8_t *line = t->text;
    size_t length = line_length(t, line), waiting = 0;
    must(splicebell_replay_first(line, length).image == t->m.image, "a first line taken");
    begin(t);
    for (line += length; line < t->text + t->text_len; line += length) {
        length = line_length(t, line);
        if (waiting > LONGEST_ANSWER)
            waiting = 0;
        waiting += play(t, line, length, waiting);
    }
}

struct answered {
    uint64_t number, count; /* the count is a repair's */
};

static struct answered answer_to(struct trace *t, const struct event *e)
{
    if (e->kind == WRITE)
        return (struct answered){splicebell_write(t->y, t->r, t->image, t->m.image, e->offset, e->bytes, e->length), 0};
    if (e->kind == READ)
        return (struct answered){splicebell_read(t->y, t->r, t->image, t->m.image, e->offset, t->out, e->length), 0};
    if (e->kind == FAIL) {
        splicebell_failed f = splicebell_fail(t->y, t->r, t->image, t->m.image, e->offset);
        t->r = f.record;
        return (struct answered){f.refusal, 0};
    }
    if (e->kind == REPAIR) {
        splicebell_repaired p = splicebell_repair(t->y, t->r, t->image, t->m.image);
        t->r = p.record;
        return (struct answered){p.refusal, p.count};
    }
    return (struct answered){13, 0};
}

static void call(void *context)
{
    struct trace *t = context;
    begin(t);
    for (size_t i = 0; i < t->count; i++)
        answer_to(t, &t->events[i]);
}

/* ---- the program, start-up included: skipped where there is none, or none for this processor */

static const char *program(void)
{
    const char *named = getenv("SPLICEBELL_REPLAY");
    return named ? named : "target/bin/replay";
}

/* Whether the program could be started; it must then end well. */
static bool run_program(int input, int output)
{
    posix_spawn_file_actions_t actions;
    char *words[] = {"replay", NULL}, *environment[] = {NULL};
    pid_t child;
    int status = 1;
    must(posix_spawn_file_actions_init(&actions) == 0, "memory");
    must(posix_spawn_file_actions_adddup2(&actions, input, 0) == 0, "memory");
    must(posix_spawn_file_actions_adddup2(&actions, output, 1) == 0, "memory");
    bool started = posix_spawn(&child, program(), &actions, NULL, words, environment) == 0;
    posix_spawn_file_actions_destroy(&actions);
    if (started)
        must(waitpid(child, &status, 0) == child && status == 0, "the program's end");
    return started;
}

static int nothing(void)
{
    static int opened = -1;
    if (opened < 0)
        opened = open("/dev/null", O_RDWR);
    return opened;
}

static bool has_program(void)
{
    return !options.emulated && run_program(nothing(), nothing());
}

static void run_on_file(const struct trace *t, int output)
{
    must(lseek(fileno(t->file), 0, SEEK_SET) == 0, "the trace's file from its beginning");
    must(run_program(fileno(t->file), output), "the program started");
}

static void run_into_nothing(void *context)
{
    run_on_file(context, nothing());
}

/* What it prints must be the answers. */
static void compare_program(struct trace *t, FILE *answers)
{
    FILE *printed = tmpfile();
    t->file = tmpfile();
    must(printed && t->file && fwrite(t->text, 1, t->text_len, t->file) == t->text_len, "a file with the trace");
    must(fflush(t->file) == 0, "a file with the trace");
    run_on_file(t, fileno(printed));
    rewind(answers);
    rewind(printed);
    for (int c = 0; c != EOF;) {
        c = getc_unlocked(answers);
        must(c == getc_unlocked(printed), "the same answers from the program and from the calls");
    }
    fclose(printed);
}

/* ---- before they are timed */

/* What a replay prints where a call answered so. */
static size_t expected(const struct trace *t, const struct event *e, struct answered a, char *text)
{
    char *at = text + sprintf(text, "%d", (int)a.number);
    if (e->kind == REPAIR && a.number == 0)
        at += sprintf(at, " %d", (int)a.count);
    if (e->kind == READ && a.number == 0) {
        *at++ = ' ';
        at = put_hex(at, t->out, e->length);
    }
    *at++ = '\n';
    return (size_t)(at - text);
}

/* Lines and calls must answer alike at every event and leave the same image and record; a day's failures must all be
 * repaired. The answers go to a file. */
static void compare(const struct trace *t, const struct mix *mix, FILE *answers)
{
    static char text[LONGEST_ANSWER];
    struct trace lines = *t, calls = *t;
    calls.image = room(t->m.image);
    begin(&lines);
    begin(&calls);
    const uint8_t *line = t->text + line_length(t, t->text);
    for (size_t i = 0; i < t->count; i++) {
        size_t length = line_length(t, line), said = play(&lines, line, length, 0);
        size_t wanted = expected(&calls, &t->events[i], answer_to(&calls, &t->events[i]), text);
        must(said == wanted && memcmp(lines.answers, text, said) == 0, "the same answer from a line and from its call");
        must(fwrite(text, 1, said, answers) == said, "a file with the answers");
        line += length;
    }
    must(line == t->text + t->text_len, "a line for each event");
    must(memcmp(lines.image, calls.image, t->m.image) == 0, "the same image from lines and from calls");
    must(memcmp(&lines.r, &calls.r, sizeof lines.r) == 0, "the same record from lines and from calls");
    must(mix->kind != DAY || (lines.r.k == t->y.k && lines.r.q == t->y.k), "as many repaired failures as a pool bears");
    free(calls.image);
}

/* ---- the tables */

/* A rate of the trace's events, and in brackets a ratio where there is a call to compare with. */
static void column(const struct trace *t, const struct mix *mix, double seconds, double ratio)
{
    printf(" %12.0f", t->count / seconds);
    if (mix->kind == MALFORMED)
        printf(" (    -)");
    else
        printf(" (%5.2f)", ratio);
}

static void row(splicebell_layout y, const struct mix *mix, bool with_program)
{
    struct trace t = trace_of(y, mix);
    FILE *answers = tmpfile();
    must(answers, "a file with the answers");
    compare(&t, mix, answers);
    if (with_program)
        compare_program(&t, answers);
    fclose(answers);
    struct timed timed[] = {{replay, &t, 0}, {call, &t, 0}, {run_into_nothing, &t, 0}};
    time_in_turns(timed, with_program ? 3 : 2);
    double calls = timed[1].seconds, ratio = calls / timed[0].seconds;
    if (mix->kind == MALFORMED)
        printf("%-30s %12s", mix->what, "-");
    else
        printf("%-30s %12.0f", mix->what, t.count / calls);
    column(&t, mix, timed[0].seconds, ratio);
    if (with_program)
        column(&t, mix, timed[2].seconds, calls / timed[2].seconds);
    printf("\n");
    char name[80];
    snprintf(name, sizeof name, "a day replayed / its calls, %d+%d over %d, units of %d bytes", (int)y.n, (int)y.k,
             (int)y.p, (int)y.u);
    if (mix->kind == DAY)
        floor_at_least(name, ratio, 0.5);
    trace_free(&t);
}

static void table(splicebell_layout y, bool with_program)
{
    splicebell_measured m = splicebell_measure(y);
    must(m.refusal == 0, "a layout within its bounds");
    printf("\nA day replayed on a pool of %d bytes (%d+%d over %d, units of %d): %zu events, 3 of 4 write, one reads\n"
           "8 bytes (half), 64 (a quarter), 512 or 4,096 (an eighth each), a failure every %d; then %d of one kind\n"
           "%-30s %12s %20s%s\n", (int)m.numbers.image, (int)y.n, (int)y.k, (int)y.p, (int)y.u,
           events_of(&mixes[0]), FAILS_EVERY, OF_ONE_KIND, "events a second (it / calls)", "calls", "replay",
           with_program ? "              program" : "");
    for (size_t i = 0; i < sizeof mixes / sizeof *mixes; i++)
        row(y, &mixes[i], with_program);
}

void run_replays(void)
{
    bool with_program = has_program();
    if (!with_program)
        printf("\n%s: cannot be run here, skipped (SPLICEBELL_REPLAY names another)\n", program());
    table((splicebell_layout){4, 2, 9, 16, 28, 7, 1}, with_program);
    table((splicebell_layout){8, 2, 12, 512, 5, 7, 1}, with_program);
    table((splicebell_layout){2, 1, 4, 1024, 8, 7, 1}, with_program);
}
