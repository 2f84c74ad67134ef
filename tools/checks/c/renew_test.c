/* Tries which lines `examples/renew.c` keeps, and the two ways that `docs/c.md` has for too many changes of mode, by the definitions:
 *
 *   renew_test CASES SEED
 *
 * Draws small graphs and logs, and finds by listing all traces whether a set of failure modes fits a log of which at most one monitor is
 * ignored. Compares each log with the lines that are kept of it: the same sets have to fit. A set that fits a log has to fit what is left by
 * the looser graph, and one that fits without a failure up to an instant has to fit the log that begins there. Prints how many sets were
 * compared, and ends with status 1 where one is lost. It needs no library.
 */
#define main main_of_renew
#include "../../../examples/renew.c"
#undef main

#define MOST_NODES 5
#define MOST_EVENTS 24
#define LAST_TIME 6
#define NO_TIME 99
#define INFINITE 99

typedef struct {
    int source, target, least, greatest;
    unsigned modes;
} edge;

typedef struct {
    enum { FAILURE, OR, AND } kind;
    bool is_monitored;
    int least_lag, greatest_lag;
} node;

typedef struct {
    node nodes[MOST_NODES];
    edge edges[16];
    int node_count, edge_count, failure_count, mode_count;
} small_graph;

typedef struct {
    int time, index;
    line_kind kind;
} event;

typedef struct {
    event events[MOST_EVENTS];
    int count;
} small_log;

/* What is asked: whether a trace from these failure modes, none before `begin`, explains the log if these monitors are ignored. */
typedef struct {
    const small_graph *graph;
    const small_log *log;
    unsigned failures, ignored;
    int begin, now, modes[LAST_TIME + 1], times[MOST_NODES];
} question;

/* The library is not called. */
tfpg_answer tfpg_open(tfpg_session *one, const uint8_t *bytes, size_t count, uint32_t k, uint32_t doubt, uint64_t budget) {
    tfpg_answer none = {TFPG_NO_MEMORY, 0, 0, 0, 0};
    (void)one, (void)bytes, (void)count, (void)k, (void)doubt, (void)budget;
    return none;
}
tfpg_answer tfpg_line(tfpg_session *one, const uint8_t *line, size_t count) { return tfpg_open(one, line, count, 0, 0, 0); }
tfpg_answer tfpg_block(tfpg_session *one, uint8_t *bytes, size_t count) { return tfpg_open(one, bytes, count, 0, 0, 0); }
void tfpg_close(tfpg_session *one) { (void)one; }

static uint64_t drawn;

/* A number below this one. */
static int draw(int below) {
    drawn ^= drawn << 13;
    drawn ^= drawn >> 7;
    drawn ^= drawn << 17;
    return (int)((drawn >> 20) % (uint64_t)below);
}

static int later_of(int one, int other) { return one > other ? one : other; }

/* How long a failure has been on its way over this edge at this instant, or -1. */
static int age_at(const question *asked, const edge *over, int instant) {
    int since = instant + 1;
    while (since > 0 && (over->modes >> asked->modes[since - 1] & 1) && asked->times[over->source] <= since - 1) since--;
    return instant - since;
}

/* Whether the may rule and the must rule hold for this discrepancy at this instant. */
static bool keeps_rules(const question *asked, int discrepancy, int instant) {
    bool is_and = asked->graph->nodes[discrepancy].kind == AND, arrived = is_and, due = is_and;
    for (int number = 0; number < asked->graph->edge_count; number++) {
        const edge *over = &asked->graph->edges[number];
        if (over->target != discrepancy) continue;
        int age = age_at(asked, over, instant);
        bool may = age >= over->least, must = over->greatest != INFINITE && age >= over->greatest;
        arrived = is_and ? arrived && may : arrived || may;
        due = is_and ? due && must : due || must;
    }
    return (asked->times[discrepancy] != instant || arrived) && (!due || asked->times[discrepancy] <= instant);
}

static bool shows_silence(const question *asked, int monitor, int time) {
    int least = asked->graph->nodes[monitor].least_lag;
    return (asked->ignored >> monitor & 1) || time < least || asked->times[monitor] > time - least;
}

static bool shows_alarm(const question *asked, int monitor, int time) {
    const node *one = &asked->graph->nodes[monitor];
    return (asked->ignored >> monitor & 1) || (asked->times[monitor] >= later_of(0, time - one->greatest_lag) &&
                                               asked->times[monitor] <= later_of(0, time - one->least_lag));
}

/* Whether the times show the event of this place. */
static bool shows(const question *asked, int place) {
    const event *shown = &asked->log->events[place];
    if (shown->kind == ALARM) return shows_alarm(asked, shown->index, shown->time);
    if (shown->kind == SILENT) return shows_silence(asked, shown->index, shown->time);
    for (int monitor = 0; shown->kind == SWEEP && monitor < asked->graph->node_count; monitor++) {
        bool had_alarm = !asked->graph->nodes[monitor].is_monitored;
        for (int before = 0; before < place; before++)
            had_alarm = had_alarm || (asked->log->events[before].kind == ALARM && asked->log->events[before].index == monitor);
        if (!had_alarm && !shows_silence(asked, monitor, shown->time)) return false;
    }
    return true;
}

static bool is_explained(const question *asked) {
    for (int place = 0; place < asked->log->count; place++)
        if (!shows(asked, place)) return false;
    for (int one = 0; one < asked->graph->node_count; one++)
        for (int instant = 0; asked->graph->nodes[one].kind != FAILURE && instant <= asked->now; instant++)
            if (!keeps_rules(asked, one, instant)) return false;
    return true;
}

/* Whether the times of the nodes from this one on can be chosen so that the log is explained. */
static bool can_explain(question *asked, int from) {
    if (from == asked->graph->node_count) return is_explained(asked);
    asked->times[from] = NO_TIME;
    if (can_explain(asked, from + 1)) return true;
    if (asked->graph->nodes[from].kind == FAILURE && !(asked->failures >> from & 1)) return false;
    for (int time = asked->begin; time <= asked->now; time++) {
        asked->times[from] = time;
        if (can_explain(asked, from + 1)) return true;
    }
    return false;
}

static bool fits(const small_graph *of, const small_log *said, unsigned failures, unsigned ignored, int begin) {
    question asked = {of, said, failures, ignored, begin, said->events[said->count - 1].time, {0}, {0}};
    for (int instant = 0; instant <= asked.now; instant++)
        for (int place = 0; place < said->count; place++)
            if (said->events[place].kind == MODE && said->events[place].time < instant) asked.modes[instant] = said->events[place].index;
    return can_explain(&asked, 0);
}

static void draw_graph(small_graph *into) {
    into->failure_count = 1 + draw(2);
    into->node_count = into->failure_count + 2 + draw(2);
    into->mode_count = 1 + draw(3);
    into->edge_count = 0;
    for (int one = 0; one < into->node_count; one++) {
        node *drawn_node = &into->nodes[one];
        drawn_node->kind = one < into->failure_count ? FAILURE : draw(3) ? OR : AND;
        drawn_node->is_monitored = drawn_node->kind != FAILURE && draw(4) != 0;
        drawn_node->least_lag = draw(2);
        drawn_node->greatest_lag = drawn_node->least_lag + draw(3);
        for (int source = 0; drawn_node->kind != FAILURE && source < one; source++) {
            bool is_last = source == one - 1 && (into->edge_count == 0 || into->edges[into->edge_count - 1].target != one);
            if (!is_last && draw(2)) continue;
            int least = draw(3);
            edge over = {source, one, least, draw(5) ? least + draw(3) : INFINITE, 1U + (unsigned)draw((1 << into->mode_count) - 1)};
            into->edges[into->edge_count++] = over;
        }
    }
    /* Now and then an edge back, which takes some time. */
    if (draw(3) == 0) {
        edge back = {into->node_count - 1, into->node_count - 2, 1, 1 + draw(3), 1U + (unsigned)draw((1 << into->mode_count) - 1)};
        into->edges[into->edge_count++] = back;
    }
}

static void add(small_log *into, int time, line_kind kind, int index) {
    event said = {time, index, kind};
    into->events[into->count++] = said;
}

static void draw_log(const small_graph *of, small_log *into) {
    int time = 0, lines = 4 + draw(10);
    into->count = 0;
    while (into->count < lines) {
        line_kind kind = (line_kind)draw(5);
        int monitor = draw(of->node_count);
        if (draw(2) && time < LAST_TIME) time++;
        if (kind == ALARM && draw(2)) kind = MODE;
        if ((kind == ALARM || kind == SILENT) && !of->nodes[monitor].is_monitored) kind = TICK;
        add(into, time, kind, kind == MODE ? draw(of->mode_count) : monitor);
    }
}

/* What `renew.c` keeps of these lines. */
static void keep_of(const small_log *all, small_log *into) {
    static const char *const words[] = {"alarm", "silent", "sweep", "tick", "mode"};
    char line[64];
    kept_count = 0;
    for (int place = 0; place < all->count; place++) {
        const event *said = &all->events[place];
        bool has_name = said->kind != SWEEP && said->kind != TICK;
        int count = has_name ? sprintf(line, "%d %s N%d", said->time, words[said->kind], said->index)
                             : sprintf(line, "%d %s", said->time, words[said->kind]);
        keep((const uint8_t *)line, (size_t)count);
    }
    into->count = 0;
    for (size_t place = 0; place < kept_count; place++) {
        int index = kept[place].text[kept[place].name] ? atoi(kept[place].text + kept[place].name + 1) : 0;
        add(into, atoi(kept[place].text), kept[place].kind, index);
    }
}

/* The looser graph, and what it is given of the kept lines. */
static void loosen(small_graph *graph_of, const small_log *lines, small_log *into) {
    for (int number = 0; number < graph_of->edge_count; number++) {
        graph_of->edges[number].greatest = INFINITE;
        graph_of->edges[number].modes = (1U << graph_of->mode_count) - 1;
    }
    into->count = 0;
    for (int place = 0; place < lines->count; place++)
        if (lines->events[place].kind != MODE) into->events[into->count++] = lines->events[place];
    add(into, lines->events[lines->count - 1].time, TICK, 0);
}

/* The log that begins at this instant. */
static void begin_at(int instant, const small_log *all, small_log *into) {
    int mode = 0;
    for (int place = 0; place < all->count; place++)
        if (all->events[place].kind == MODE && all->events[place].time <= instant) mode = all->events[place].index;
    into->count = 0;
    add(into, 0, MODE, mode);
    for (int place = 0; place < all->count; place++)
        if (all->events[place].time > instant) {
            into->events[into->count] = all->events[place];
            into->events[into->count++].time -= instant;
        }
}

int main(int count, char **words) {
    unsigned long cases = count == 3 ? strtoul(words[1], NULL, 10) : 0, sets = 0, fitting = 0, differ = 0, lost_loose = 0, lost_late = 0;
    if (!cases) return 2;
    drawn = strtoull(words[2], NULL, 10) * 2654435761U + 1;
    for (unsigned long number = 0; number < cases; number++) {
        small_graph drawn_graph, loose;
        small_log all, lines, left, late;
        draw_graph(&drawn_graph);
        draw_log(&drawn_graph, &all);
        keep_of(&all, &lines);
        loose = drawn_graph;
        loosen(&loose, &lines, &left);
        int instant = draw(4);
        begin_at(instant, &all, &late);
        for (unsigned failures = 0; failures < 1U << drawn_graph.failure_count; failures++)
            for (int ignored = -1; ignored < drawn_graph.node_count; ignored++) {
                unsigned without = ignored < 0 ? 0 : 1U << ignored;
                if (ignored >= 0 && !drawn_graph.nodes[ignored].is_monitored) continue;
                bool is_fit = fits(&drawn_graph, &all, failures, without, 0);
                sets++;
                fitting += is_fit;
                differ += is_fit != fits(&drawn_graph, &lines, failures, without, 0);
                lost_loose += is_fit && !fits(&loose, &left, failures, without, 0);
                lost_late += fits(&drawn_graph, &all, failures, without, instant + 1) && !fits(&drawn_graph, &late, failures, without, 0);
            }
    }
    printf("renew: %lu logs, %lu sets, of which %lu fit: %lu differ; lost by the looser graph %lu, and by a later beginning %lu\n", cases, sets,
           fitting, differ, lost_loose, lost_late);
    return differ + lost_loose + lost_late != 0;
}
