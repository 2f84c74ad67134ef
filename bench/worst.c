/* Says which line of a log takes most memory, and which takes most time, where a session takes it as a line and where as an event:
 *
 *   worst GRAPH LOG K DOUBT BUDGET [MEGABYTES]
 *
 * Prints fields with spaces between: the lines; the bytes of the session once it is open; and then by lines and by events the most bytes that
 * the session had at once, the most that one line added at once, its number and its requests for memory, and the most microseconds that a line
 * took, and its number. A block that is made larger counts as two. The time is of the processor, so it leaves out what other programs took
 * meanwhile. Where the library would have more than so many megabytes (4,096 if nothing is said) there is none, and the fields of the line
 * before that are said; the status then is 8.
 *
 * It defines the three functions for memory itself, over `malloc`. So it is linked with the library alone.
 */
#define _POSIX_C_SOURCE 200809L
#include "tfpg.h"

#include "../examples/pool.h"
#include "measured.h"

#include <stdio.h>
#include <stdlib.h>
#include <string.h>

/* What was found of a session. */
typedef struct {
    size_t open, most, added, added_line, requests, slowest_line;
    uint64_t slowest;
    uint32_t status;
} finding;

/* The bytes that are taken, the most of them since a line began, and the requests since then. */
static size_t taken, most, requests, allowed = (size_t)4096 << 20;

/* Takes a block in place of one of `old` bytes, or of none. */
static heap_answer take(void *p, size_t size, size_t old) {
    heap_answer answer = {false, &taken};
    uint8_t *given;
    requests++;
    if (taken + size > allowed) return answer;
    given = (uint8_t *)realloc(p, size + HEAD);
    if (!given) return answer;
    memcpy(given, &size, sizeof size);
    if (taken + size > most) most = taken + size;
    taken = taken + size - old;
    answer.ok = true;
    answer.p = given + HEAD;
    return answer;
}

heap_answer rattle_alloc(size_t size, size_t align) {
    return take(NULL, size ? size : align, 0);
}

heap_answer rattle_realloc(void *p, size_t kept, size_t size, size_t align) {
    (void)kept;
    return take((uint8_t *)p - HEAD, size ? size : align, size_of(p));
}

void rattle_dealloc(void *p) {
    taken -= size_of(p);
    free((uint8_t *)p - HEAD);
}

/* The kind of an event by its word, or 0. */
static uint32_t kind_of(const char *word) {
    static const char *const kinds[] = {"", "alarm", "silent", "sweep", "tick", "mode"};
    for (uint32_t kind = TFPG_ALARM; kind <= TFPG_MODE; kind++)
        if (strcmp(word, kinds[kind]) == 0) return kind;
    return 0;
}

/* Gives a line to the session, as a line or as an event. */
static tfpg_answer give(tfpg_session *session, const uint8_t *line, size_t count, bool by_event) {
    char copy[128] = "", kind[16] = "", name[64] = "";
    unsigned long long time = 0;
    uint32_t index = UINT32_MAX;
    if (!by_event || count >= sizeof copy) return tfpg_line(session, line, count);
    memcpy(copy, line, count);
    if (sscanf(copy, "%llu %15s %63s", &time, kind, name) == 3)
        tfpg_index(session, kind_of(kind) == TFPG_MODE ? TFPG_MODE_NAME : TFPG_NODE_NAME, (uint8_t *)name, strlen(name), &index);
    return tfpg_event(session, time, kind_of(kind), index);
}

/* Where the line ends that begins here. */
static size_t end_of_line(const text *log, size_t begin) {
    while (begin < log->count && log->bytes[begin] != '\n') begin++;
    return begin;
}

static finding run(const text *graph, const text *log, const uint32_t *terms, uint64_t budget, bool by_event) {
    finding found = {0, 0, 0, 0, 0, 0, 0, TFPG_DONE};
    tfpg_session session = TFPG_SESSION;
    size_t number = 0;
    most = 0;
    found.status = tfpg_open(&session, graph->bytes, graph->count, terms[0], terms[1], budget).status;
    found.open = taken;
    found.most = most;
    for (size_t begin = 0, end; begin < log->count && found.status == TFPG_DONE; begin = end + 1) {
        size_t before = taken;
        uint64_t begun = nanoseconds();
        end = end_of_line(log, begin);
        most = taken;
        requests = 0;
        found.status = give(&session, log->bytes + begin, end - begin, by_event).status;
        begun = nanoseconds() - begun;
        number++;
        if (most > found.most) found.most = most;
        if (most - before > found.added) found.added = most - before, found.added_line = number, found.requests = requests;
        if (begun > found.slowest) found.slowest = begun, found.slowest_line = number;
    }
    tfpg_close(&session);
    return found;
}

static void print(const finding *found) {
    printf(" %zu %zu %zu %zu %.0f %zu", found->most, found->added, found->added_line, found->requests, (double)found->slowest / 1e3,
           found->slowest_line);
}

int main(int count, char **words) {
    uint32_t terms[2];
    uint64_t budget;
    text graph, log;
    finding lines, events;
    size_t all = 0;
    if (count != 6 && count != 7) return TFPG_OUT_OF_RANGE;
    graph = text_of(words[1]);
    log = text_of(words[2]);
    terms[0] = (uint32_t)strtoul(words[3], NULL, 10);
    terms[1] = (uint32_t)strtoul(words[4], NULL, 10);
    budget = strtoull(words[5], NULL, 10);
    if (count == 7) allowed = (size_t)strtoull(words[6], NULL, 10) << 20;
    lines = run(&graph, &log, terms, budget, false);
    events = run(&graph, &log, terms, budget, true);
    for (size_t byte = 0; byte < log.count; byte++) all += log.bytes[byte] == '\n';
    printf("%zu %zu", all, lines.open);
    print(&lines);
    print(&events);
    printf("\n");
    free(graph.bytes);
    free(log.bytes);
    return lines.status ? (int)lines.status : (int)events.status;
}
