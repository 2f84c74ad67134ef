/* Runs each call for C on the deepest inputs, in a thread that has just as much stack as `include/tfpg.h` says:
 *
 *   stack [GRAPH LOG]..
 *
 * The inputs: 512 nodes in a chain, 511 for forecasts, whose edges have a least delay of 1 or of 0, and whose nodes are declared in their
 * order or backwards, each but the first with a monitor, and a monitor may be doubted; 512 monitors in a ring; 64 failure modes with 448
 * monitors; an edge that names 64 modes; a map and a report whose set names all monitors; a report with 10^6 nested splits; and the graphs
 * and logs of the words. Below the stack there are pages that nothing may touch, so a call that needs more is ended.
 *
 * Prints a line for each call: `stack CALL USED OF`, the most bytes that it used, and those that the header says. The memory functions are
 * those of the toolchain's archive, over `malloc`, and their stack is in it. Ends with status 1, and says it, where a call was ended, or did
 * not answer as it should.
 */
#define _DEFAULT_SOURCE
#include "tfpg.h"

#include <pthread.h>
#include <stdarg.h>
#include <stdio.h>
#include <stdlib.h>
#include <string.h>
#include <sys/mman.h>
#include <sys/wait.h>
#include <unistd.h>

#define PAGE 4096U
#define STACK (1U << 20)
#define PAINT 0xa5

/* As many as a graph may have. */
enum { NODES = (int)TFPG_MAX_NODES, FAILURES = (int)TFPG_MAX_FAILURES, MODES = (int)TFPG_MAX_MODES };

typedef struct {
    char *bytes;
    size_t count, room;
} text;

enum call { REPORT, CHECK, ASK, PREDICT, EXPLAIN, OPEN, LINE, EVENT, BLOCK, RESULT_OF, RANKED_AT, INDEX, NAME, CLOSE, CALLS };

/* The stack of each call, by the header. */
static const struct {
    const char *name;
    size_t stack;
} calls[CALLS] = {
    {"tfpg_report", TFPG_STACK_OF_REPORT},   {"tfpg_check", TFPG_STACK_OF_CHECK},         {"tfpg_ask", TFPG_STACK_OF_ASK},
    {"tfpg_predict", TFPG_STACK_OF_PREDICT}, {"tfpg_explain", TFPG_STACK_OF_EXPLAIN},     {"tfpg_open", TFPG_STACK_OF_OPEN},
    {"tfpg_line", TFPG_STACK_OF_LINE},       {"tfpg_event", TFPG_STACK_OF_EVENT},         {"tfpg_block", TFPG_STACK_OF_BLOCK},
    {"tfpg_result_of", TFPG_STACK_OF_RESULT_OF}, {"tfpg_ranked_at", TFPG_STACK_OF_RANKED_AT}, {"tfpg_index", TFPG_STACK_OF_INDEX},
    {"tfpg_name", TFPG_STACK_OF_NAME},       {"tfpg_close", TFPG_STACK_OF_CLOSE}};

/* What a call is made with, what it answered, and the most that each one used, which the children tell. */
static enum call made_call;
static const char *input;
static text graph, history, report, map, node, line;
static uint32_t k, doubt;
static tfpg_session session = TFPG_SESSION;
static tfpg_answer answer;
static uint8_t room[1 << 24];
static size_t *used;

static void give_up(const char *what) {
    perror(what);
    exit(70);
}

/* Appends to a text. */
static void add(text *to, const char *format, ...) {
    va_list words;
    if (to->room - to->count < 256) {
        to->room = 2 * to->room + 256;
        to->bytes = (char *)realloc(to->bytes, to->room);
        if (!to->bytes) give_up("memory");
    }
    va_start(words, format);
    to->count += (size_t)vsnprintf(to->bytes + to->count, 256, format, words);
    va_end(words);
}

static const uint8_t *bytes_of(const text *from) {
    return (const uint8_t *)(from->bytes ? from->bytes : "");
}

#define TEXT(one) bytes_of(&(one)), (one).count

static void make_call(void) {
    static const tfpg_answer done;
    const tfpg_prediction_terms terms = {k, doubt, 10, UINT64_C(1000000000000)};
    static tfpg_result result;
    static tfpg_ranked ranked;
    static uint64_t times[NODES];
    static uint32_t index;
    answer = done;
    switch (made_call) {
    case REPORT: answer = tfpg_report(TEXT(graph), TEXT(history), k, doubt, 100, room, sizeof room); break;
    case CHECK: answer = tfpg_check(TEXT(graph), TEXT(history), TEXT(report)); break;
    case ASK: answer = tfpg_ask(TEXT(graph), TEXT(history), k, doubt, 10, room, sizeof room); break;
    case PREDICT: answer = tfpg_predict(TEXT(graph), TEXT(history), TEXT(node), &terms, room, sizeof room); break;
    case EXPLAIN: answer = tfpg_explain(TEXT(graph), TEXT(history), TEXT(map), room, sizeof room); break;
    case OPEN: answer = tfpg_open(&session, TEXT(graph), k, doubt, 100); break;
    case LINE: answer = tfpg_line(&session, TEXT(line)); break;
    case EVENT: answer = tfpg_event(&session, UINT64_C(1000000000), TFPG_TICK, 0); break;
    case BLOCK: answer = tfpg_block(&session, room, sizeof room); break;
    case RESULT_OF: answer = tfpg_result_of(&session, &result); break;
    case RANKED_AT: answer = tfpg_ranked_at(&session, 0, &ranked, times, NODES); break;
    case INDEX: answer = tfpg_index(&session, TFPG_NODE_NAME, TEXT(node), &index); break;
    case NAME: answer = tfpg_name(&session, TFPG_NODE_NAME, 0, room, sizeof room); break;
    case CLOSE: tfpg_close(&session); break;
    case CALLS: break;
    }
}

/* The stack of the thread, and what is left of it for the call: from `low` up to `top`. */
static uint8_t *stack, *low;
static uintptr_t top;

/* Makes the call where just so much is left of the stack. What is too much is taken by an array, and the pages below are shut. */
static void *make_call_there(void *unused) {
    uint8_t here = 0;
    size_t wanted = calls[made_call].stack;
    size_t over = ((uintptr_t)&here - wanted) % PAGE;
    volatile uint8_t taken[over + 1];
    taken[0] = here;
    top = (uintptr_t)taken;
    low = stack + ((top - wanted - (uintptr_t)stack) / PAGE + 1) * PAGE;
    if (mprotect(stack, (size_t)(low - stack), PROT_NONE)) give_up("pages");
    make_call();
    return unused;
}

/* Makes this call in a thread of its own, and notes what it used. */
static void try_call(enum call wanted) {
    pthread_attr_t with;
    pthread_t thread;
    size_t clean = 0;
    made_call = wanted;
    stack = (uint8_t *)mmap(NULL, STACK, PROT_READ | PROT_WRITE, MAP_PRIVATE | MAP_ANONYMOUS, -1, 0);
    if (stack == MAP_FAILED) give_up("stack");
    memset(stack, PAINT, STACK);
    if (pthread_attr_init(&with) || pthread_attr_setstack(&with, stack, STACK)) give_up("stack");
    if (pthread_create(&thread, &with, make_call_there, NULL)) give_up("thread");
    pthread_join(thread, NULL);
    pthread_attr_destroy(&with);
    while (low[clean] == PAINT) clean++;
    clean = (size_t)(top - (uintptr_t)low) - clean;
    if (clean > used[wanted]) used[wanted] = clean;
    munmap(stack, STACK);
}

/* Ends where the call did not answer as it should. */
static void expect(enum call wanted, enum tfpg_status status) {
    fflush(stdout);
    try_call(wanted);
    if (answer.status == (uint32_t)status) return;
    printf("%s: %s: %s %s at %llu\n", input, calls[wanted].name, tfpg_status_name(answer.status),
           tfpg_cause_name(answer.status, answer.cause), (unsigned long long)answer.line);
    exit(1);
}

/* The calls of a session, over each line of the log. */
static void try_session(void) {
    size_t begin, end;
    tfpg_result result;
    expect(OPEN, TFPG_DONE);
    for (begin = 0; begin < history.count; begin = end + 1) {
        for (end = begin; end < history.count && history.bytes[end] != '\n'; end++) continue;
        line.count = end - begin;
        line.bytes = history.bytes + begin;
        expect(LINE, TFPG_DONE);
    }
    expect(EVENT, TFPG_DONE);
    expect(BLOCK, TFPG_DONE);
    expect(RESULT_OF, TFPG_DONE);
    expect(INDEX, TFPG_DONE);
    expect(NAME, TFPG_DONE);
    tfpg_result_of(&session, &result);
    expect(RANKED_AT, result.ranked ? TFPG_DONE : TFPG_NO_SUCH);
    expect(CLOSE, TFPG_DONE);
}

/* All calls. A full graph has no forecasts. What `tfpg_report` wrote is judged. */
static void try_all(void) {
    try_session();
    expect(ASK, TFPG_DONE);
    try_call(PREDICT);
    if (answer.status != TFPG_FULL_GRAPH) expect(PREDICT, TFPG_DONE);
    try_call(EXPLAIN);
    expect(EXPLAIN, map.count ? TFPG_DONE : TFPG_BAD_MAP);
    expect(REPORT, TFPG_DONE);
    report.count = 0;
    for (size_t byte = 0; byte < answer.count; byte++) add(&report, "%c", room[byte]);
    expect(CHECK, TFPG_DONE);
}

/* Runs these calls in a process of its own, in which nothing was called before. Returns whether it ended well. */
static bool ended_well(const char *name, void (*run)(void)) {
    int status = 0;
    pid_t child;
    input = name;
    fflush(stdout);
    child = fork();
    if (child < 0) give_up("process");
    if (child == 0) {
        run();
        exit(0);
    }
    waitpid(child, &status, 0);
    if (WIFSIGNALED(status)) printf("%s: ended by signal %d\n", name, WTERMSIG(status));
    return status == 0;
}

static void begin_graph(void) {
    graph.count = history.count = map.count = report.count = node.count = 0;
    add(&graph, "tfpg 1\nmode N\n");
}

/* So many nodes in a chain from a failure mode on, over edges of this least delay, declared backwards or not. */
static void make_chain(int nodes, int least, bool backwards) {
    begin_graph();
    for (int place = 0; place < nodes; place++) {
        int number = backwards ? nodes - 1 - place : place;
        if (number == 0) {
            add(&graph, "failure F 1\n");
        } else {
            add(&graph, "or A%d watch 1000000\n", number);
        }
    }
    for (int place = 1; place < nodes; place++) {
        int number = backwards ? nodes - place : place;
        if (number == 1) {
            add(&graph, "edge F A1 %d inf *\n", least);
        } else {
            add(&graph, "edge A%d A%d %d inf *\n", number - 1, number, least);
        }
    }
    add(&graph, "end\n");
    add(&history, "1000 alarm A1\n2000 sweep\n500000 alarm A%d\n500000 tick\n", nodes - 1);
    add(&node, "A%d", nodes - 1);
    k = doubt = 1;
    add(&map, "set F");
    for (int place = 1; place < nodes; place++) add(&map, ",!A%d", backwards ? nodes - place : place);
    add(&map, "\nat F 0\n");
}

/* The report of a chain, whose set names all monitors. It can be read, and it is wrong. */
static void try_wide_set(void) {
    add(&report, "report 2 k 1 doubt 1 budget 100\nround 1 1 1000\nranked 0 cost 0 robust 1/1 ");
    for (size_t byte = 0; map.bytes[byte] != '\n'; byte++) add(&report, "%c", map.bytes[byte]);
    add(&report, "\ncounts ranked 1 covered 0 rejected 0 open 0\n");
    expect(CHECK, TFPG_NOT_ACCEPTED);
}

/* As many monitors as there may be nodes, in a ring. */
static void make_ring(void) {
    begin_graph();
    for (int place = 0; place < NODES; place++) add(&graph, "or A%d watch 5\n", place);
    for (int place = 0; place < NODES; place++) add(&graph, "edge A%d A%d 1 2 *\n", place, (place + 1) % NODES);
    add(&graph, "end\n");
    add(&history, "1000 alarm A1\n");
    add(&node, "A1");
    k = doubt = 1;
    add(&map, "set !A0");
    for (int place = 1; place < NODES; place++) add(&map, ",!A%d", place);
    add(&map, "\n");
}

/* As many failure modes as there may be, each of which leads to a monitor, and else monitors, of which the last ones are a chain. */
static void make_many_failures(void) {
    begin_graph();
    for (int place = 0; place < FAILURES; place++) add(&graph, "failure F%d 1\n", place);
    for (int place = 0; place < NODES - FAILURES; place++) add(&graph, "or A%d watch 5\n", place);
    for (int place = 0; place < FAILURES; place++) add(&graph, "edge F%d A%d 1 2 *\n", place, place);
    for (int place = FAILURES; place < NODES - FAILURES; place++) add(&graph, "edge A%d A%d 1 2 *\n", place - 1, place);
    add(&graph, "end\n");
    add(&history, "1000 alarm A64\n");
    add(&node, "A64");
    k = doubt = 1;
    add(&map, "set F0");
    for (int place = 1; place < FAILURES; place++) add(&map, ",F%d", place);
    add(&map, "\n");
}

/* An edge that names as many modes as there may be. */
static void make_many_modes(void) {
    begin_graph();
    for (int place = 1; place < MODES; place++) add(&graph, "mode M%d\n", place);
    add(&graph, "failure F 1\nor A watch 5\nedge F A 1 3 N");
    for (int place = 1; place < MODES; place++) add(&graph, ",M%d", place);
    add(&graph, "\nend\n");
    add(&history, "100 mode M5\n1000 alarm A\n");
    add(&node, "A");
    k = 1;
    doubt = 0;
}

/* A report of a graph in which a failure mode has 10^6 splits, each in the first alternative of the one before. */
static void make_nested(void) {
    graph.count = history.count = report.count = 0;
    add(&graph, "tfpg 1\nmode N\nmode D\nfailure F1 3\nfailure F2 5\nor A watch 0\nor B hidden\nand C watch 0\nedge F1 A 10 20 N,D\n");
    add(&graph, "edge F2 A 5 5 N\nedge F1 B 0 inf *\nedge A C 0 10 *\nedge B C 0 10 *\nend\n");
    add(&history, "30 alarm A\n");
    add(&report, "report 1 k 1 budget 1000000\nround 1 1 30\nhyp 0\ncycle 2\nwhy unreached A 30\nwhy upto 1\nhyp 1\n");
    for (int split = 0; split < 1000000; split++) add(&report, "split ormay A 0 30\n");
    add(&report, "ranked 2 cost 5 robust 1/1 set F2\nat F2 25\nat A 30\nopen 1 set F1\nrejected 0 set -\n");
    add(&report, "counts ranked 1 covered 0 rejected 1 open 1\n");
}

static void try_report(void) {
    expect(CHECK, TFPG_DONE);
}

/* The text of a file. */
static void read_file(text *into, const char *name) {
    FILE *file = fopen(name, "rb");
    int byte;
    into->count = 0;
    if (!file) give_up(name);
    while ((byte = getc(file)) != EOF) add(into, "%c", byte);
    fclose(file);
}

static void make_from_files(const char *graph_name, const char *log_name) {
    char name[33] = "";
    const char *last;
    begin_graph();
    read_file(&graph, graph_name);
    read_file(&history, log_name);
    for (last = graph.bytes; (last = strstr(last, "\nor ")) != NULL; last += 4) sscanf(last, "\nor %32s", name);
    add(&node, "%s", name);
    add(&map, "set -\n");
    k = 2;
    doubt = 0;
}

int main(int count, char **words) {
    bool well = true;
    used = (size_t *)mmap(NULL, PAGE, PROT_READ | PROT_WRITE, MAP_SHARED | MAP_ANONYMOUS, -1, 0);
    if (used == MAP_FAILED) give_up("memory");
    for (int least = 0; least < 2; least++)
        for (int backwards = 0; backwards < 2; backwards++)
            for (int nodes = NODES - 1; nodes <= NODES; nodes++) {
                make_chain(nodes, least, backwards);
                well &= ended_well("a chain", try_all);
                report.count = 0;
                well &= ended_well("a chain, and a wide set", try_wide_set);
            }
    make_ring();
    well &= ended_well("a ring", try_all);
    make_many_failures();
    well &= ended_well("all failure modes", try_all);
    make_many_modes();
    well &= ended_well("all modes", try_all);
    make_nested();
    well &= ended_well("nested splits", try_report);
    for (int word = 1; word + 1 < count; word += 2) {
        make_from_files(words[word], words[word + 1]);
        well &= ended_well(words[word + 1], try_all);
    }
    for (int call = 0; call < CALLS; call++) {
        printf("stack %s %zu %zu\n", calls[call].name, used[call], calls[call].stack);
        well &= used[call] > 0;
    }
    return well ? 0 : 1;
}
