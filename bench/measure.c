/* What a session takes: memory, calls for it, time and stack:
 *
 *   measure NAME GRAPH K LOG
 *
 * Opens a session of the graph with this k, gives it each line of the log and asks for each block. Gives the log to a second session, each
 * other tick as an event, and asks for the numbers of each line, and for the block of each event, first without memory and then with it. Then
 * makes the report of the same log at once, of its first 1,000 lines at most, and judges it; and makes the questions after these lines, the
 * forecasts of the last node, and the verdict on the map of the empty set. Prints three lines of fields between bars, in which NAME stands
 * first:
 *
 * - `memory`: the bytes that the library has once the session is open, and after 1,000, 16,384 and 65,536 accepted lines, or `-`; the most
 *   that it had at once, where a block that is made larger counts as two; the same where each block takes the least power of two that holds
 *   it, as in `examples/pool.c`; and the calls of the three functions for memory for a line and its block, on average.
 * - `time`: the lines; the microseconds of `tfpg_line`, on average, of the 99th of 100, and at worst; those of `tfpg_block`, on average; the
 *   microseconds of `tfpg_open`; and the bytes of stack of the calls of the sessions, of `tfpg_report`, `tfpg_check`, `tfpg_ask`,
 *   `tfpg_predict` and `tfpg_explain`. It is time of the processor, so it leaves out what other programs took meanwhile.
 * - `numbers`: the ticks; the microseconds of one by `tfpg_line`, and of one by `tfpg_event`; and those of all numbers of a line, by
 *   `tfpg_result_of` and a `tfpg_ranked_at` with its times for each rank, all on average. If asking took memory, it is said.
 *
 * It defines the three functions itself, over `malloc`. So it is linked with the library alone. The calls run in threads whose stacks are
 * painted before. What is counted as stack has some 200 bytes of this program.
 */
#define _POSIX_C_SOURCE 200809L
#include "tfpg.h"

#include "../examples/pool.h"
#include "measured.h"

#include <pthread.h>
#include <stdio.h>
#include <stdlib.h>
#include <string.h>

#define PAINT 0xa5
#define STACK (4U << 20)
#define MOST_LINES 100000

/* Bytes that are taken, the most of them so far, and the same of a pool of powers of two. */
static size_t taken, most, pool_taken, most_of_pool;
static unsigned long calls;

/* Whether there is no memory. */
static bool refuse;

static text graph, history;
static uint32_t k;
static const char *name;
static uint8_t room[1 << 26];
static uint64_t times[MOST_LINES];

static size_t in_pool(size_t size) {
    size_t power = 32;
    while (power < size) power *= 2;
    return power;
}

/* Notes that a block of `size` bytes comes and one of `old` goes, or none where the number is 0. Both are there for a moment. */
static void note(size_t size, size_t old) {
    taken += size;
    pool_taken += size ? in_pool(size) : 0;
    if (taken > most) most = taken;
    if (pool_taken > most_of_pool) most_of_pool = pool_taken;
    taken -= old;
    pool_taken -= old ? in_pool(old) : 0;
    calls++;
}

/* A block that `malloc` or `realloc` gave. Where there is none, the address is any but NULL. */
static heap_answer answer_of(uint8_t *given, size_t size, size_t old) {
    heap_answer answer = {false, room};
    if (given) {
        memcpy(given, &size, sizeof size);
        answer.ok = true;
        answer.p = given + HEAD;
        note(size, old);
    }
    return answer;
}

heap_answer rattle_alloc(size_t size, size_t align) {
    if (size == 0) size = align;
    return answer_of(refuse ? NULL : (uint8_t *)malloc(size + HEAD), size, 0);
}

heap_answer rattle_realloc(void *p, size_t kept, size_t size, size_t align) {
    size_t old = size_of(p);
    (void)kept;
    if (size == 0) size = align;
    return answer_of(refuse ? NULL : (uint8_t *)realloc((uint8_t *)p - HEAD, size + HEAD), size, old);
}

void rattle_dealloc(void *p) {
    note(0, size_of(p));
    free((uint8_t *)p - HEAD);
}

static int by_number(const void *left, const void *right) {
    uint64_t one = *(const uint64_t *)left, other = *(const uint64_t *)right;
    return (one > other) - (one < other);
}

static void expect_done(const char *what, tfpg_answer answer) {
    if (answer.status == TFPG_DONE) return;
    fprintf(stderr, "%s: %s: status %u\n", name, what, answer.status);
    exit((int)answer.status);
}

static void expect_none(const char *what, tfpg_answer answer) {
    fprintf(stderr, "%s: %s: status %u\n", name, what, answer.status);
    exit(70);
}

/* Where the line ends that begins here. */
static size_t end_of_line(size_t begin) {
    while (begin < history.count && history.bytes[begin] != '\n') begin++;
    return begin;
}

/* What was found. The bytes that the library has are noted when the session is open, and after so many accepted lines. */
static const size_t accepted_wanted[] = {0, 1000, 16384, 65536};
static size_t taken_then[4], lines, most_of_session, most_of_its_pool, left, stack_of_session, stack_of_calls[5];
static unsigned long calls_of_lines;
static uint64_t block_time, open_time;

/* Where the stack of the thread began. */
static const uint8_t *stack_begin;

static void *run_session(void *unused) {
    uint8_t here = 0;
    tfpg_session session = TFPG_SESSION;
    size_t accepted = 0, found = 1;
    uint64_t begun = nanoseconds();
    stack_begin = &here;
    expect_done("open", tfpg_open(&session, graph.bytes, graph.count, k, 0, 1000));
    open_time = nanoseconds() - begun;
    taken_then[0] = taken;
    calls = 0;
    for (size_t begin = 0; begin < history.count && lines < MOST_LINES; lines++) {
        size_t end = end_of_line(begin);
        begun = nanoseconds();
        expect_done("line", tfpg_line(&session, history.bytes + begin, end - begin));
        times[lines] = nanoseconds() - begun;
        expect_done("block", tfpg_block(&session, room, sizeof room));
        block_time += nanoseconds() - begun - times[lines];
        begin = end + 1;
        if (room[1] == 'o') accepted++;
        if (found < 4 && accepted == accepted_wanted[found]) taken_then[found++] = taken;
    }
    calls_of_lines = calls;
    most_of_session = most;
    most_of_its_pool = most_of_pool;
    tfpg_close(&session);
    left = taken;
    return unused;
}

/* Whether a line is a tick, and when. */
static bool is_tick(size_t begin, size_t end, uint64_t *time) {
    static const char after[] = " tick";
    char digits[24];
    size_t count = end - begin - (sizeof after - 1);
    if (end - begin < sizeof after || count >= sizeof digits) return false;
    if (memcmp(history.bytes + begin + count, after, sizeof after - 1)) return false;
    memcpy(digits, history.bytes + begin, count);
    digits[count] = 0;
    *time = strtoull(digits, NULL, 10);
    return true;
}

/* Asks a session for all numbers of its last line. */
static void ask(tfpg_session *session) {
    static uint64_t active[TFPG_MAX_NODES];
    tfpg_result result;
    tfpg_ranked ranked;
    expect_done("result", tfpg_result_of(session, &result));
    for (uint32_t rank = 0; rank < result.ranked; rank++) expect_done("ranked", tfpg_ranked_at(session, rank, &ranked, active, TFPG_MAX_NODES));
}

/* Asks for the block of an event where there is no memory for it, and once more where there is. The session is as before. */
static void ask_block(tfpg_session *session) {
    size_t before = taken;
    tfpg_answer answer;
    refuse = true;
    answer = tfpg_block(session, room, sizeof room);
    refuse = false;
    if (answer.status != TFPG_NO_MEMORY) expect_none("block without memory", answer);
    expect_done("block of an event", tfpg_block(session, room, sizeof room));
    if (taken != before) expect_none("block that leaves memory", answer);
}

/* What was found of a session that takes each other tick as an event. */
static size_t ticks[2];
static uint64_t tick_time[2], ask_time;
static unsigned long calls_of_asking;

static void *run_events(void *unused) {
    uint8_t here = 0;
    tfpg_session session = TFPG_SESSION;
    size_t number = 0;
    stack_begin = &here;
    expect_done("open", tfpg_open(&session, graph.bytes, graph.count, k, 0, 1000));
    for (size_t begin = 0, end; begin < history.count && number < MOST_LINES; begin = end + 1, number++) {
        uint64_t time = 0, begun, asked;
        bool ticks_here, by_event;
        end = end_of_line(begin);
        ticks_here = is_tick(begin, end, &time);
        by_event = ticks_here && ticks[0] > ticks[1];
        begun = nanoseconds();
        expect_done("event", by_event ? tfpg_event(&session, time, TFPG_TICK, 0)
                                      : tfpg_line(&session, history.bytes + begin, end - begin));
        asked = nanoseconds();
        if (ticks_here) ticks[by_event]++, tick_time[by_event] += asked - begun;
        calls = 0;
        ask(&session);
        ask_time += nanoseconds() - asked;
        calls_of_asking += calls;
        if (by_event) ask_block(&session);
    }
    tfpg_close(&session);
    left += taken;
    return unused;
}

/* The bytes of the first 1,000 lines, and of the report of these. */
static size_t first_lines, report_count;

static void *run_report(void *unused) {
    uint8_t here = 0;
    tfpg_answer answer;
    stack_begin = &here;
    for (int line = 0; line < 1000 && first_lines < history.count; line++) first_lines = end_of_line(first_lines) + 1;
    if (first_lines > history.count) first_lines = history.count;
    answer = tfpg_report(graph.bytes, graph.count, history.bytes, first_lines, k, 0, 1000, room, sizeof room);
    expect_done("report", answer);
    report_count = answer.count;
    return unused;
}

static void *run_check(void *unused) {
    uint8_t here = 0;
    stack_begin = &here;
    expect_done("check", tfpg_check(graph.bytes, graph.count, history.bytes, first_lines, room, report_count));
    return unused;
}

static void *run_ask(void *unused) {
    uint8_t here = 0;
    stack_begin = &here;
    expect_done("ask", tfpg_ask(graph.bytes, graph.count, history.bytes, first_lines, k, 0, 1000, room, sizeof room));
    return unused;
}

/* Of a graph with no room for a probe there are no forecasts. */
static void *run_predict(void *unused) {
    uint8_t here = 0, node[32];
    tfpg_prediction_terms hour = {0, 0, 1000, 3600000};
    tfpg_session session = TFPG_SESSION;
    size_t node_count = 0;
    tfpg_answer answer;
    hour.k = k;
    expect_done("open", tfpg_open(&session, graph.bytes, graph.count, k, 0, 1000));
    for (uint32_t index = 0;; index++) {
        answer = tfpg_name(&session, TFPG_NODE_NAME, index, node, sizeof node);
        if (answer.status != TFPG_DONE) break;
        node_count = answer.count;
    }
    tfpg_close(&session);
    stack_begin = &here;
    answer = tfpg_predict(graph.bytes, graph.count, history.bytes, first_lines, node, node_count, &hour, room, sizeof room);
    if (answer.status != TFPG_FULL_GRAPH) expect_done("predict", answer);
    return unused;
}

static void *run_explain(void *unused) {
    static const uint8_t map[] = "set -\n";
    uint8_t here = 0;
    stack_begin = &here;
    expect_done("explain", tfpg_explain(graph.bytes, graph.count, history.bytes, first_lines, map, sizeof map - 1, room, sizeof room));
    return unused;
}

/* Runs this function on a painted stack, and returns how many bytes of it were used. */
static size_t stack_used(void *(*run)(void *)) {
    pthread_attr_t with;
    pthread_t thread;
    size_t clean = 0;
    void *stack = NULL;
    if (posix_memalign(&stack, 4096, STACK)) give_up("stack");
    memset(stack, PAINT, STACK);
    if (pthread_attr_init(&with) || pthread_attr_setstack(&with, stack, STACK)) give_up("stack");
    if (pthread_create(&thread, &with, run, NULL) == 0) {
        pthread_join(thread, NULL);
    } else {
        give_up("thread");
    }
    pthread_attr_destroy(&with);
    while (((uint8_t *)stack)[clean] == PAINT) clean++;
    clean = (size_t)(stack_begin - ((uint8_t *)stack + clean));
    free(stack);
    return clean;
}

static void print_memory(void) {
    printf("memory | %s |", name);
    for (int then = 0; then < 4; then++) {
        if (taken_then[then]) {
            printf(" %zu |", taken_then[then]);
        } else {
            printf(" - |");
        }
    }
    printf(" %zu | %zu | %.1f |\n", most_of_session, most_of_its_pool, (double)calls_of_lines / (double)lines);
    if (left != 0) printf("%s: %zu bytes are left after the end\n", name, left);
}

static void print_time(void) {
    uint64_t all = 0;
    for (size_t line = 0; line < lines; line++) all += times[line];
    qsort(times, lines, sizeof *times, by_number);
    printf("time | %s | %zu | %.1f | %.1f | %.1f | %.1f | %.0f | %zu |", name, lines, (double)all / (double)lines / 1e3,
           (double)times[lines * 99 / 100] / 1e3, (double)times[lines - 1] / 1e3, (double)block_time / (double)lines / 1e3,
           (double)open_time / 1e3, stack_of_session);
    for (int call = 0; call < 5; call++) printf(" %zu |", stack_of_calls[call]);
    printf("\n");
}

static double microseconds(uint64_t all, size_t of) {
    return of ? (double)all / (double)of / 1e3 : 0;
}

static void print_numbers(void) {
    printf("numbers | %s | %zu | %.1f | %.1f | %.1f |\n", name, ticks[0] + ticks[1], microseconds(tick_time[0], ticks[0]),
           microseconds(tick_time[1], ticks[1]), microseconds(ask_time, lines));
    if (calls_of_asking) printf("%s: %lu calls for memory while asking\n", name, calls_of_asking);
}

int main(int count, char **words) {
    static void *(*const calls_of_texts[])(void *) = {run_report, run_check, run_ask, run_predict, run_explain};
    size_t stack_of_events;
    if (count != 5) return TFPG_OUT_OF_RANGE;
    name = words[1];
    graph = text_of(words[2]);
    k = (uint32_t)strtoul(words[3], NULL, 10);
    history = text_of(words[4]);
    stack_of_session = stack_used(run_session);
    stack_of_events = stack_used(run_events);
    if (stack_of_events > stack_of_session) stack_of_session = stack_of_events;
    for (int call = 0; call < 5; call++) stack_of_calls[call] = stack_used(calls_of_texts[call]);
    if (lines == 0) return TFPG_OUT_OF_RANGE;
    print_memory();
    print_time();
    print_numbers();
    free(graph.bytes);
    free(history.bytes);
    return left != 0 || calls_of_asking != 0;
}
