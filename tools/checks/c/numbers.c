/* Writes what the numbers of a session say of a log, in the lines of a report, without those of evidence. Or writes all names of a graph:
 *
 *   numbers GRAPH K DOUBT BUDGET < LOG
 *   numbers GRAPH
 *
 * Two sessions take the log: one its lines, the other its events, where a line says one. Prints each line of which they say two things, each
 * number that contradicts another, and each name that does not lead back, and ends with how many there were. 70: the graph is not there. 71:
 * it cannot be opened.
 */
#include "tfpg.h"

#include <inttypes.h>
#include <stdio.h>
#include <stdlib.h>
#include <string.h>

static tfpg_session lines = TFPG_SESSION, events = TFPG_SESSION;
static uint8_t graph[1 << 24], one_block[1 << 22], other_block[1 << 22], line[4200];
static uint64_t times[TFPG_MAX_NODES];
static uint32_t order[TFPG_MAX_HYPOTHESES], order_before[TFPG_MAX_HYPOTHESES];
static int wrong;

/* Notes what is wrong at a line. */
static void complain(uint64_t at, const char *what) {
    printf("line %" PRIu64 ": %s\n", at, what);
    wrong++;
}

/* Prints the name of what has this index. It has to lead back there. */
static void print_name(uint32_t kind, uint32_t index) {
    uint8_t name[TFPG_MAX_NAME];
    uint32_t again = index + 1;
    size_t count = (size_t)tfpg_name(&events, kind, index, name, sizeof name).count;
    if (tfpg_index(&events, kind, name, count, &again).status != TFPG_DONE || again != index) complain(0, "a name leads elsewhere");
    printf("%.*s", (int)count, (char *)name);
}

/* Prints each name, with its kind and its index. */
static void print_names(void) {
    static const char *const kinds[] = {"", "node", "failure", "mode"};
    for (uint32_t kind = TFPG_NODE_NAME; kind <= TFPG_MODE_NAME; kind++)
        for (uint32_t index = 0; tfpg_name(&events, kind, index, line, 0).status == TFPG_ROOM_TOO_SMALL; index++) {
            printf("%s %" PRIu32 " ", kinds[kind], index);
            print_name(kind, index);
            putchar('\n');
        }
}

/* Prints the members of a ranked hypothesis. */
static void print_set(const tfpg_ranked *ranked) {
    const char *before = "";
    for (uint32_t position = 0; position < TFPG_MAX_FAILURES; position++)
        if (ranked->failures >> position & 1) printf("%s", before), print_name(TFPG_FAILURE_NAME, position), before = ",";
    for (uint32_t node = 0; node < TFPG_MAX_NODES; node++)
        if (ranked->doubts[node / 64] >> node % 64 & 1) printf("%s!", before), print_name(TFPG_NODE_NAME, node), before = ",";
    puts(*before ? "" : "-");
}

/* Prints what is ranked, and returns how many hypotheses are. */
static uint32_t print_ranked(uint64_t at) {
    tfpg_ranked ranked;
    uint32_t rank = 0, active;
    for (;; rank++) {
        tfpg_answer answer = tfpg_ranked_at(&events, rank, &ranked, times, TFPG_MAX_NODES);
        if (answer.status == TFPG_NO_SUCH) return rank;
        if (answer.status != TFPG_DONE || answer.count > TFPG_MAX_NODES) return complain(at, "no ranked hypothesis"), rank;
        printf("ranked %" PRIu32 " cost %" PRIu64 " robust %" PRIu32 "/%" PRIu32 " set ", ranked.hypothesis, ranked.cost, ranked.alarmed,
               ranked.monitored);
        print_set(&ranked);
        active = 0;
        for (uint32_t node = 0; node < answer.count; node++)
            if (times[node] != TFPG_NEVER) {
                active++;
                printf("at ");
                print_name(TFPG_NODE_NAME, node);
                printf(" %" PRIu64 "\n", times[node]);
            }
        if (active != ranked.active) complain(at, "the count of active nodes");
        if (rank < TFPG_MAX_HYPOTHESES) order[rank] = ranked.hypothesis;
        if (answer.count > 1 && tfpg_ranked_at(&events, rank, &ranked, times, 1).status != TFPG_ROOM_TOO_SMALL) complain(at, "a short room");
    }
}

/* Prints what the last line brought. */
static void print_result(uint32_t *ranked_before) {
    tfpg_result result, of_line;
    if (tfpg_result_of(&events, &result).status || tfpg_result_of(&lines, &of_line).status) complain(0, "no result");
    if (memcmp(&result, &of_line, sizeof result)) complain(result.line, "the numbers of the event");
    if (result.refusal) {
        printf("refused %" PRIu64 " %s", result.line, tfpg_cause_name(TFPG_DONE, result.refusal));
        if (result.refusal == TFPG_LOG_TIME_BACK) printf(" %" PRIu64, result.last);
        putchar('\n');
        if (result.changed) complain(result.line, "a refused line changed the ranking");
        return;
    }
    printf("round %" PRIu64 " %" PRIu64 " %" PRIu64 "\n", result.round, result.line, result.now);
    uint32_t ranked = print_ranked(result.line);
    printf("counts ranked %" PRIu32 " covered %" PRIu32 " rejected %" PRIu32 " open %" PRIu32 "\n", result.ranked, result.covered,
           result.rejected, result.open);
    if (ranked != result.ranked || ranked > TFPG_MAX_HYPOTHESES) complain(result.line, "the count of ranked hypotheses");
    bool is_other = ranked != *ranked_before || memcmp(order, order_before, ranked * sizeof *order) != 0;
    if (result.changed != is_other) complain(result.line, "whether the ranking changed");
    memcpy(order_before, order, sizeof order);
    *ranked_before = ranked;
}

/* Whether a line says an event, and which one. */
static bool is_event(const char *text, uint64_t *time, uint32_t *kind, uint32_t *index) {
    static const char *const kinds[] = {"", "alarm", "silent", "sweep", "tick", "mode"};
    char word[8], name[40], again[80];
    int words = sscanf(text, "%" SCNu64 " %7[a-z] %39s", time, word, name);
    for (*kind = 1; *kind < 6 && (words < 2 || strcmp(word, kinds[*kind])); ++*kind) {}
    if (*kind == 6 || words != (*kind == TFPG_SWEEP || *kind == TFPG_TICK ? 2 : 3)) return false;
    snprintf(again, sizeof again, words == 3 ? "%" PRIu64 " %s %s" : "%" PRIu64 " %s", *time, word, name);
    if (strcmp(text, again)) return false;
    *index = UINT32_MAX;
    if (words == 3) tfpg_index(&events, *kind == TFPG_MODE ? TFPG_MODE_NAME : TFPG_NODE_NAME, (uint8_t *)name, strlen(name), index);
    return true;
}

int main(int count, char **words) {
    FILE *file = count == 2 || count == 5 ? fopen(words[1], "rb") : NULL;
    size_t end = file ? fread(graph, 1, sizeof graph, file) : 0;
    uint32_t k = 0, doubt = 0, kind, index, ranked = 0;
    uint64_t budget = 1, time, number = 0;
    if (!file || !feof(file)) return 70;
    if (count == 5)
        k = (uint32_t)strtoul(words[2], NULL, 10), doubt = (uint32_t)strtoul(words[3], NULL, 10), budget = strtoull(words[4], NULL, 10);
    if (tfpg_open(&lines, graph, end, k, doubt, budget).status || tfpg_open(&events, graph, end, k, doubt, budget).status) return 71;
    if (count == 2) print_names();
    while (count == 5 && fgets((char *)line, sizeof line, stdin)) {
        size_t length = strcspn((char *)line, "\n");
        line[length] = 0, number++;
        tfpg_answer given = tfpg_line(&lines, line, length);
        tfpg_answer also = is_event((char *)line, &time, &kind, &index) ? tfpg_event(&events, time, kind, index)
                                                                        : tfpg_line(&events, line, length);
        if (given.status || also.status) complain(number, "the status");
        given = tfpg_block(&lines, one_block, sizeof one_block);
        also = tfpg_block(&events, other_block, sizeof other_block);
        if (given.status || also.status || given.count != also.count || memcmp(one_block, other_block, given.count))
            complain(number, "the block of the event");
        print_result(&ranked);
    }
    tfpg_close(&lines);
    tfpg_close(&events);
    fclose(file);
    return wrong > 69 ? 69 : wrong;
}
