/* Finds each cause that `include/tfpg.h` names, in a small text of its own:
 *
 *   causes FOLDER
 *
 * Writes the texts into the folder: `CAUSE.graph` for a cause of a graph, `CAUSE.report` for one of a report, and `judged.graph` and `judged.log`
 * by which the reports are judged. Prints a line for each, in which the header's name stands for the number that came: `graph LINE CAUSE`
 * or `not accepted LINE CAUSE`. They come in the order of the header.
 */
#include "tfpg.h"

#include <stdio.h>
#include <string.h>

/* Lines of a text: so many times this one. A `%d` in it is the number of each, from 0; two of them are what is left of it by 32, and the
 * quotient. */
typedef struct {
    int count;
    const char *line;
} lines;

/* The lines of a graph, and the cause that it has. */
typedef struct {
    const char *name;
    enum tfpg_graph_cause cause;
    lines text[6];
} graph_case;

/* A report, as the right one in which these lines are replaced, and the cause that it has. */
typedef struct {
    const char *name;
    enum tfpg_report_cause cause;
    int first, last;
    const char *in_place;
} report_case;

#define GRAPH(NAME) #NAME, TFPG_GRAPH_##NAME
#define REPORT(NAME) #NAME, TFPG_REPORT_##NAME
#define TOP {1, "tfpg 1\nmode N\n"}
#define END {1, "end\n"}

static const graph_case graphs[] = {
    {GRAPH(BAD_HEADER), {{1, "tfpg 0\n"}}},
    {GRAPH(BAD_LINE), {TOP, {1, "modes\n"}, END}},
    {GRAPH(BAD_NAME), {TOP, {1, "mode N,\n"}, END}},
    {GRAPH(DUPLICATE_NAME), {TOP, {1, "mode N\n"}, END}},
    {GRAPH(UNKNOWN_NAME), {TOP, {1, "failure F 1\nedge F A 0 0 *\n"}, END}},
    {GRAPH(BAD_NUMBER), {TOP, {1, "failure F x\n"}, END}},
    {GRAPH(NUMBER_TOO_LARGE), {TOP, {1, "failure F 1\nor A watch 0\nedge F A 0 2000000000000 *\n"}, END}},
    {GRAPH(MIN_OVER_MAX), {TOP, {1, "failure F 1\nor A watch 0\nedge F A 2 1 *\n"}, END}},
    {GRAPH(EDGE_INTO_FAILURE), {TOP, {1, "failure F 1\nor A watch 0\nedge A F 0 0 *\n"}, END}},
    {GRAPH(SELF_EDGE), {TOP, {1, "or A watch 0\nedge A A 0 0 *\n"}, END}},
    {GRAPH(DUPLICATE_EDGE), {TOP, {1, "failure F 1\nor A watch 0\n"}, {2, "edge F A 0 0 *\n"}, END}},
    {GRAPH(NO_MODES), {TOP, {1, "failure F 1\nor A watch 0\nedge F A 0 0 -\n"}, END}},
    {GRAPH(NO_INCOMING), {TOP, {1, "or A watch 0\n"}, END}},
    {GRAPH(ZERO_CYCLE), {TOP, {1, "or A watch 0\nor B watch 0\nedge A B 0 0 *\nedge B A 0 0 *\n"}, END}},
    {GRAPH(TOO_MANY_NODES), {TOP, {513, "or A%d hidden\n"}, END}},
    {GRAPH(TOO_MANY_FAILURES), {TOP, {65, "failure F%d 1\n"}, END}},
    {GRAPH(TOO_MANY_EDGES), {TOP, {32, "failure F%d 1\n"}, {65, "or A%d hidden\n"}, {2049, "edge F%d A%d 0 0 *\n"}, END}},
    {GRAPH(TOO_MANY_MODES), {TOP, {64, "mode M%d\n"}, END}},
    {GRAPH(TOO_MANY_INCOMING), {TOP, {33, "failure F%d 1\n"}, {1, "or A hidden\n"}, {33, "edge F%d A 0 0 *\n"}, END}},
    {GRAPH(MISSING_END), {TOP}},
    {GRAPH(AFTER_END), {TOP, {2, "end\n"}}},
};

static const char judged_graph[] =
    "tfpg 1\nmode N\nmode D\nfailure F1 3\nfailure F2 5\nor A watch 0\nor B hidden\nand C watch 0\nedge F1 A 10 20 N,D\nedge F2 A 5 5 N\n"
    "edge F1 B 0 inf *\nedge A C 0 10 *\nedge B C 0 10 *\nend\n";
static const char judged_log[] = "20 mode D\n30 alarm A\n";
static const char right[] =
    "report 1 k 1 budget 1000\nround 1 1 20\nranked 0 cost 0 robust 1/1 set -\ncounts ranked 1 covered 2 rejected 0 open 0\nround 2 2 30\n"
    "hyp 0\ncycle 2\nwhy unreached A 30\nwhy upto 2\nhyp 1\nsplit ormay A 1 30\ncycle 2\nwhy pick 1 1\nwhy from 2\ncycle 2\nwhy pick 1 1\n"
    "why upto 2\nhyp 2\nsplit ormay A 1 30\ncycle 2\nwhy pick 1 1\nwhy from 2\ncycle 2\nwhy pick 1 1\nwhy upto 2\ncycle 3\nwhy pick 1 1\n"
    "why upto 2\nwhy unreached F1 30\nranked 1 cost 3 robust 1/2 set F1\nat F1 20\nat A 30\nrejected 0 set -\nrejected 2 set F2\n"
    "counts ranked 1 covered 0 rejected 2 open 0\n";

static const report_case reports[] = {
    {REPORT(AFTER_CLOSED), 10, 9, "cycle 2\nwhy unreached A 30\nwhy upto 2\n"},
    {REPORT(NOT_REUSABLE), 12, 11, "again\n"},
    {REPORT(NOT_A_CLAUSE), 11, 11, "split ormay A 2 30\n"},
    {REPORT(NOT_A_FACT), 9, 9, "why upto 1\n"},
    {REPORT(NOT_ON_PATH), 13, 13, "why pick 2 1\n"},
    {REPORT(UNCHAINED), 26, 29, "cycle 2\nwhy pick 1 1\nwhy upto 2\n"},
    {REPORT(NOT_NEGATIVE), 8, 8, "why unreached A 29\n"},
    {REPORT(BAD_REPORT), 1, 1, "report 1 k 1 budget 0\n"},
    {REPORT(SURPLUS), 36, 35, "refused 3 BadLine\n"},
    {REPORT(WRONG_ROUND), 2, 2, "round 1 1 21\n"},
    {REPORT(WRONG_HYPOTHESIS), 6, 6, "hyp 7\n"},
    {REPORT(WRONG_RANKED), 3, 3, "ranked 0 cost 1 robust 1/1 set -\n"},
    {REPORT(NOT_A_TRACE), 31, 31, "at F1 21\n"},
    {REPORT(WRONG_OPEN), 33, 32, "open 1 set F1\n"},
    {REPORT(WRONG_REJECTED), 34, 34, ""},
    {REPORT(WRONG_STATUS), 30, 32, ""},
    {REPORT(WRONG_COUNTS), 4, 4, "counts ranked 1 covered 1 rejected 0 open 0\n"},
    {REPORT(ENDS_EARLY), 5, 35, ""},
};

#define COUNT(CASES) (sizeof(CASES) / sizeof *(CASES))

static const char *folder;
static char text[1 << 17];

/* Puts a text into a file of the folder. */
static void keep(const char *name, const char *kind, const char *bytes) {
    char path[4096];
    snprintf(path, sizeof path, "%s/%s.%s", folder, name, kind);
    FILE *file = fopen(path, "w");
    if (!file || fputs(bytes, file) < 0 || fclose(file)) perror(path);
}

/* Makes the text of a graph. */
static void write_graph(const lines *parts) {
    size_t end = 0;
    for (int part = 0; part < 6 && parts[part].count; part++) {
        const char *line = parts[part].line;
        const char *first = strchr(line, '%');
        int two = first && strchr(first + 1, '%');
        for (int number = 0; number < parts[part].count; number++)
            end += (size_t)snprintf(text + end, sizeof text - end, line, two ? number % 32 : number, number / 32);
    }
}

/* Makes the text of a report. */
static void write_report(const report_case *one) {
    const char *at = right, *rest;
    for (int line = 1; line < one->first && *at; line++) at = strchr(at, '\n') + 1;
    rest = at;
    for (int line = one->first; line <= one->last && *rest; line++) rest = strchr(rest, '\n') + 1;
    snprintf(text, sizeof text, "%.*s%s%s", (int)(at - right), right, one->in_place, rest);
}

/* The name of a cause by its number, or what came in its place. */
#define NAME_OF(CASES, answer, status_wanted) \
    ((answer).status == (status_wanted) && (answer).cause - 1 < COUNT(CASES) ? (CASES)[(answer).cause - 1].name : "none")

int main(int count, char **words) {
    static uint8_t room[4096];
    int wrong = 0;
    if (count != 2) return 2;
    folder = words[1];
    keep("judged", "graph", judged_graph);
    keep("judged", "log", judged_log);
    for (size_t index = 0; index < COUNT(graphs); index++) {
        write_graph(graphs[index].text);
        keep(graphs[index].name, "graph", text);
        tfpg_answer answer = tfpg_report((uint8_t *)text, strlen(text), (const uint8_t *)"", 0, 0, 0, 1, room, sizeof room);
        printf("graph %llu %s\n", (unsigned long long)answer.line, NAME_OF(graphs, answer, TFPG_BAD_GRAPH));
        wrong += graphs[index].cause != index + 1;
    }
    for (size_t index = 0; index < COUNT(reports); index++) {
        write_report(&reports[index]);
        keep(reports[index].name, "report", text);
        tfpg_answer answer = tfpg_check((const uint8_t *)judged_graph, strlen(judged_graph), (const uint8_t *)judged_log, strlen(judged_log),
                                        (uint8_t *)text, strlen(text));
        printf("not accepted %llu %s\n", (unsigned long long)answer.line, NAME_OF(reports, answer, TFPG_NOT_ACCEPTED));
        wrong += reports[index].cause != index + 1;
    }
    if (wrong) puts("the causes are not in the order of the header");
    return wrong;
}
