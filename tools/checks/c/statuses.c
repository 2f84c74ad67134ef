/* Tries the calls for C where they do not end well, or are made in an unusual order:
 *
 *   statuses
 *
 * Prints each answer that is not the one that `include/tfpg.h` says, and ends with their number.
 */
#include "tfpg.h"

#include <stdio.h>
#include <string.h>

static const char graph[] = "tfpg 1\nmode N\nfailure F 1\nor A watch 0\nedge F A 1 3 *\nend\n";
static const char bad[] = "tfpg 1\nmode N\nmode N\nend\n";
static const char head[] = "report 2 k 1 doubt 0 budget 1000\n";
static uint8_t room[4096], ones[4097];
static int wrong;

/* A text and how many bytes it has. */
#define TEXT(text) (const uint8_t *)(text), sizeof(text) - 1

/* An answer is to have this status, and what the status says: a cause, a line, and a count. */
static void expect(const char *what, tfpg_answer answer, enum tfpg_status status, uint32_t cause, uint64_t line, uint64_t count) {
    if (answer.status == status && answer.cause == cause && answer.line == line && answer.count == count && !answer.count_high) return;
    printf("%s: status %u, cause %u, line %llu, count %llu\n", what, answer.status, answer.cause, (unsigned long long)answer.line,
           (unsigned long long)answer.count);
    wrong++;
}

/* A graph of 64 failure modes, which has 43,745 sets of at most three. */
static size_t many_failures(char *into, size_t size) {
    size_t end = (size_t)snprintf(into, size, "tfpg 1\nmode N\n");
    for (int number = 0; number < 64; number++) end += (size_t)snprintf(into + end, size - end, "failure F%d 1\n", number);
    return end + (size_t)snprintf(into + end, size - end, "end\n");
}

/* Calls over whole texts. */
static void try_texts(void) {
    char large[4096];
    size_t count = many_failures(large, sizeof large);
    expect("a bad graph", tfpg_report(TEXT(bad), TEXT(""), 1, 0, 1000, room, sizeof room), TFPG_BAD_GRAPH, TFPG_GRAPH_DUPLICATE_NAME, 3, 0);
    expect("k of 65", tfpg_report(TEXT(graph), TEXT(""), 65, 0, 1000, room, sizeof room), TFPG_OUT_OF_RANGE, 0, 0, 0);
    expect("a doubt of 5", tfpg_report(TEXT(graph), TEXT(""), 1, 5, 1000, room, sizeof room), TFPG_OUT_OF_RANGE, 0, 0, 0);
    expect("a budget of 0", tfpg_report(TEXT(graph), TEXT(""), 1, 0, 0, room, sizeof room), TFPG_OUT_OF_RANGE, 0, 0, 0);
    expect("too many sets", tfpg_report((uint8_t *)large, count, TEXT(""), 3, 0, 1000, room, sizeof room), TFPG_TOO_MANY_HYPOTHESES, 0, 0,
           43745);
    expect("no room", tfpg_report(TEXT(graph), TEXT(""), 1, 0, 1000, room, 3), TFPG_ROOM_TOO_SMALL, 0, 0, sizeof head - 1);
    expect("an empty log", tfpg_report(TEXT(graph), TEXT(""), 1, 0, 1000, room, sizeof room), TFPG_DONE, 0, 0, sizeof head - 1);
    expect("its report", tfpg_check(TEXT(graph), TEXT(""), room, sizeof head - 1), TFPG_DONE, 0, 0, 0);
    expect("no report", tfpg_check(TEXT(graph), TEXT(""), TEXT("")), TFPG_NOT_ACCEPTED, TFPG_REPORT_ENDS_EARLY, 1, 0);
    expect("a bad graph, judged", tfpg_check(TEXT(bad), TEXT(""), TEXT(head)), TFPG_BAD_GRAPH, TFPG_GRAPH_DUPLICATE_NAME, 3, 0);
}

/* A graph of so many nodes. */
static size_t many_nodes(int nodes, char *into, size_t size) {
    size_t end = (size_t)snprintf(into, size, "tfpg 1\nmode N\nfailure F 1\n");
    for (int node = 1; node < nodes; node++) end += (size_t)snprintf(into + end, size - end, "or D%d watch 0\n", node);
    for (int node = 1; node < nodes; node++) end += (size_t)snprintf(into + end, size - end, "edge F D%d 1 3 *\n", node);
    return end + (size_t)snprintf(into + end, size - end, "end\n");
}

/* Calls over whole texts that ask, predict and explain. */
static void try_answers(void) {
    static const tfpg_prediction_terms second = {1, 0, 1000, 1000}, no_budget = {1, 0, 0, 1000}, far = {1, 0, 1000, UINT64_C(1000000000001)};
    static const char asked[] = "questions now 0 ranked 0 open 0\nask A silent 0 alarm 0 unknown 0\n";
    static const char predicted[] = "predict A now 0 to 1000\n", map[] = "set F\nat F 1\nat A 3\n";
    static char large[65536];
    size_t count = many_nodes(512, large, sizeof large);
    expect("questions", tfpg_ask(TEXT(graph), TEXT(""), 1, 0, 1000, room, sizeof room), TFPG_DONE, 0, 0, sizeof asked - 1);
    if (memcmp(room, asked, sizeof asked - 1)) wrong++, puts("the questions are others");
    expect("no room for questions", tfpg_ask(TEXT(graph), TEXT(""), 1, 0, 1000, room, 3), TFPG_ROOM_TOO_SMALL, 0, 0, sizeof asked - 1);
    expect("questions with k of 65", tfpg_ask(TEXT(bad), TEXT(""), 65, 0, 1000, room, sizeof room), TFPG_OUT_OF_RANGE, 0, 0, 0);
    expect("questions of a bad graph", tfpg_ask(TEXT(bad), TEXT(""), 1, 0, 1000, room, sizeof room), TFPG_BAD_GRAPH,
           TFPG_GRAPH_DUPLICATE_NAME, 3, 0);
    expect("forecasts", tfpg_predict(TEXT(graph), TEXT(""), TEXT("A"), &second, room, sizeof room), TFPG_DONE, 0, 0, sizeof predicted - 1);
    if (memcmp(room, predicted, sizeof predicted - 1)) wrong++, puts("the forecasts are others");
    expect("forecasts without budget", tfpg_predict(TEXT(graph), TEXT(""), TEXT("A"), &no_budget, room, sizeof room), TFPG_OUT_OF_RANGE, 0,
           0, 0);
    expect("forecasts too far ahead", tfpg_predict(TEXT(bad), TEXT(""), TEXT("A"), &far, room, sizeof room), TFPG_OUT_OF_RANGE, 0, 0, 0);
    expect("forecasts of no node", tfpg_predict(TEXT(graph), TEXT(""), TEXT("B"), &second, room, sizeof room), TFPG_NO_SUCH, 0, 0, 0);
    expect("forecasts in a full graph", tfpg_predict((uint8_t *)large, count, TEXT(""), TEXT("D1"), &second, room, sizeof room),
           TFPG_FULL_GRAPH, TFPG_GRAPH_TOO_MANY_NODES, 0, 0);
    expect("a verdict", tfpg_explain(TEXT(graph), TEXT("3 alarm A\n"), TEXT(map), room, sizeof room), TFPG_DONE, 0, 0, 4);
    if (memcmp(room, "yes\n", 4)) wrong++, puts("the verdict is another");
    expect("no room for a verdict", tfpg_explain(TEXT(graph), TEXT("3 alarm A\n"), TEXT(map), room, 3), TFPG_ROOM_TOO_SMALL, 0, 0, 4);
    expect("a verdict on no map", tfpg_explain(TEXT(graph), TEXT(""), TEXT(""), room, sizeof room), TFPG_BAD_MAP, 0, 1, 0);
    expect("a verdict on a bad map", tfpg_explain(TEXT(graph), TEXT(""), TEXT("set F\nat B 1\n"), room, sizeof room), TFPG_BAD_MAP, 0, 2, 0);
    expect("a verdict by a bad graph", tfpg_explain(TEXT(bad), TEXT(""), TEXT(map), room, sizeof room), TFPG_BAD_GRAPH,
           TFPG_GRAPH_DUPLICATE_NAME, 3, 0);
}

/* Calls of an open session that has taken no line, by numbers. */
static void try_numbers(tfpg_session *session) {
    static const tfpg_result nothing;
    tfpg_result result;
    tfpg_ranked ranked;
    uint64_t times[3] = {1, 2, 3};
    uint32_t index = 7;
    memset(&result, 1, sizeof result);
    expect("the result before a line", tfpg_result_of(session, &result), TFPG_DONE, 0, 0, 0);
    if (memcmp(&result, &nothing, sizeof result)) wrong++, puts("the result before a line is another");
    expect("ranked before a line", tfpg_ranked_at(session, 0, &ranked, times, 2), TFPG_NO_SUCH, 0, 0, 0);
    expect("an alarm of no node", tfpg_event(session, 5, TFPG_ALARM, 2), TFPG_DONE, 0, 0, 0);
    tfpg_result_of(session, &result);
    if (result.refusal != TFPG_LOG_UNKNOWN_NAME || result.line != 1 || result.round) wrong++, puts("an alarm of no node is taken");
    expect("an alarm of a failure mode", tfpg_event(session, 5, TFPG_ALARM, 0), TFPG_DONE, 0, 0, 0);
    tfpg_result_of(session, &result);
    if (result.refusal != TFPG_LOG_NOT_MONITORED) wrong++, puts("an alarm of a failure mode is taken");
    expect("an event of no kind", tfpg_event(session, 5, 6, 0), TFPG_DONE, 0, 0, 0);
    tfpg_result_of(session, &result);
    if (result.refusal != TFPG_LOG_BAD_LINE) wrong++, puts("an event of no kind is taken");
    expect("an alarm", tfpg_event(session, 5, TFPG_ALARM, 1), TFPG_DONE, 0, 0, 0);
    tfpg_result_of(session, &result);
    if (result.refusal || !result.changed || result.line != 4 || result.round != 1 || result.now != 5 || result.ranked != 1)
        wrong++, puts("an alarm brings another round");
    expect("no room for the times", tfpg_ranked_at(session, 0, &ranked, times, 1), TFPG_ROOM_TOO_SMALL, 0, 0, 2);
    if (times[0] != 1) wrong++, puts("a time was written without room");
    expect("what is ranked", tfpg_ranked_at(session, 0, &ranked, times, 2), TFPG_DONE, 0, 0, 2);
    if (ranked.failures != 1 || ranked.cost != 1 || ranked.hypothesis != 1 || ranked.active != 2 || times[0] > 4 || times[1] != 5)
        wrong++, puts("another is ranked");
    expect("what is ranked, without times", tfpg_ranked_at(session, 0, &ranked, times, 0), TFPG_DONE, 0, 0, 2);
    memset(&ranked, 1, sizeof ranked);
    expect("what is ranked after it", tfpg_ranked_at(session, 1, &ranked, times, 2), TFPG_NO_SUCH, 0, 0, 0);
    expect("no rank and no room", tfpg_ranked_at(session, UINT32_MAX, &ranked, times, 1), TFPG_NO_SUCH, 0, 0, 0);
    if (memcmp(&ranked, ones, sizeof ranked)) wrong++, puts("what is not ranked was written");
    expect("more room than nodes", tfpg_ranked_at(session, 0, &ranked, times, 3), TFPG_DONE, 0, 0, 2);
    if (times[2] != 3) wrong++, puts("a time after the last node was written");
    expect("the index of a name", tfpg_index(session, TFPG_FAILURE_NAME, TEXT("F"), &index), TFPG_DONE, 0, 0, 0);
    if (index != 0) wrong++, puts("the index of a name is another");
    expect("the index of no failure mode", tfpg_index(session, TFPG_FAILURE_NAME, TEXT("A"), &index), TFPG_NO_SUCH, 0, 0, 0);
    expect("the index of no name", tfpg_index(session, TFPG_NODE_NAME, TEXT(""), &index), TFPG_NO_SUCH, 0, 0, 0);
    expect("the index of no kind", tfpg_index(session, 4, TEXT("A"), &index), TFPG_NO_SUCH, 0, 0, 0);
    if (index != 0) wrong++, puts("an index of nothing was written");
    room[0] = room[1] = '?';
    expect("no room for a name", tfpg_name(session, TFPG_NODE_NAME, 1, room, 0), TFPG_ROOM_TOO_SMALL, 0, 0, 1);
    if (room[0] != '?') wrong++, puts("a name was written without room");
    expect("the name of a node", tfpg_name(session, TFPG_NODE_NAME, 1, room, 2), TFPG_DONE, 0, 0, 1);
    if (room[0] != 'A' || room[1] != '?') wrong++, puts("the name of a node is another");
    expect("the name of no mode", tfpg_name(session, TFPG_MODE_NAME, 1, room, sizeof room), TFPG_NO_SUCH, 0, 0, 0);
    expect("the name of no kind", tfpg_name(session, 0, 0, room, sizeof room), TFPG_NO_SUCH, 0, 0, 0);
}

/* The session is to say that its last line was refused for this cause, which carries this time, and that the line left this round. */
static void expect_refused(tfpg_session *session, tfpg_answer answer, enum tfpg_refusal cause, uint64_t last, uint64_t round) {
    tfpg_result result;
    tfpg_result_of(session, &result);
    if (answer.status == TFPG_DONE && result.refusal == cause && result.last == last && result.round == round && !result.changed) return;
    printf("refused as %s: status %u, refusal %u, time %llu, round %llu\n", tfpg_cause_name(TFPG_DONE, cause), answer.status,
           result.refusal, (unsigned long long)result.last, (unsigned long long)result.round);
    wrong++;
}

/* Each cause for which a log refuses a line, of a session that has taken none. Of more than one that holds the first is said. */
static void try_refusals(tfpg_session *session) {
    expect_refused(session, tfpg_line(session, TEXT("tick 1")), TFPG_LOG_BAD_LINE, 0, 0);
    expect_refused(session, tfpg_line(session, TEXT("1 tick\n")), TFPG_LOG_BAD_LINE, 0, 0);
    expect_refused(session, tfpg_line(session, TEXT("01 tick")), TFPG_LOG_BAD_NUMBER, 0, 0);
    expect_refused(session, tfpg_line(session, ones, 4097), TFPG_LOG_TOO_LONG, 0, 0);
    expect_refused(session, tfpg_line(session, ones, 4096), TFPG_LOG_BAD_LINE, 0, 0);
    expect_refused(session, tfpg_event(session, UINT64_MAX, 0, 0), TFPG_LOG_BAD_LINE, 0, 0);
    expect_refused(session, tfpg_event(session, UINT64_MAX, TFPG_TICK, 0), TFPG_LOG_TIME_TOO_LARGE, 0, 0);
    expect_refused(session, tfpg_event(session, TFPG_NEVER, TFPG_ALARM, 2), TFPG_LOG_TIME_TOO_LARGE, 0, 0);
    for (uint64_t number = 1; number <= 1024; number++)
        if (tfpg_event(session, 7, TFPG_MODE, 0).status != TFPG_DONE) wrong++, puts("a change of mode is not taken");
    expect_refused(session, tfpg_event(session, 6, TFPG_SILENT, 2), TFPG_LOG_TIME_BACK, 7, 1024);
    expect_refused(session, tfpg_event(session, 7, TFPG_SILENT, 2), TFPG_LOG_UNKNOWN_NAME, 0, 1024);
    expect_refused(session, tfpg_event(session, 7, TFPG_SILENT, 0), TFPG_LOG_NOT_MONITORED, 0, 1024);
    expect_refused(session, tfpg_event(session, 7, TFPG_MODE, UINT32_MAX), TFPG_LOG_NOT_A_MODE, 0, 1024);
    expect_refused(session, tfpg_event(session, 7, TFPG_MODE, 0), TFPG_LOG_MODES_FULL, 0, 1024);
    for (uint64_t number = 1025; number <= 65536; number++)
        if (tfpg_event(session, number, number % 2 ? TFPG_TICK : TFPG_SWEEP, UINT32_MAX).status != TFPG_DONE)
            wrong++, puts("an event is not taken");
    expect_refused(session, tfpg_event(session, 65536, TFPG_TICK, 0), TFPG_LOG_LOG_FULL, 0, 65536);
    expect_refused(session, tfpg_event(session, 65536, TFPG_MODE, 0), TFPG_LOG_LOG_FULL, 0, 65536);
    expect_refused(session, tfpg_event(session, 65535, TFPG_TICK, 0), TFPG_LOG_TIME_BACK, 65536, 65536);
}

/* Calls by numbers of a session that is closed. They write nothing. */
static void try_closed(tfpg_session *session) {
    tfpg_result result;
    tfpg_ranked ranked;
    uint64_t times[2] = {1, 2};
    uint32_t index = 7;
    memset(&result, 1, sizeof result);
    memset(&ranked, 1, sizeof ranked);
    room[0] = '?';
    expect("a result of a closed one", tfpg_result_of(session, &result), TFPG_ENDED, 0, 0, 0);
    expect("what a closed one ranks", tfpg_ranked_at(session, 0, &ranked, times, 1), TFPG_ENDED, 0, 0, 0);
    expect("an index of a closed one", tfpg_index(session, 0, TEXT("A"), &index), TFPG_ENDED, 0, 0, 0);
    expect("a name of a closed one", tfpg_name(session, 0, 0, room, sizeof room), TFPG_ENDED, 0, 0, 0);
    if (memcmp(&result, ones, sizeof result) || memcmp(&ranked, ones, sizeof ranked) || times[0] != 1 || index != 7 || room[0] != '?')
        wrong++, puts("a closed session writes");
}

/* Calls of a session. */
static void try_session(void) {
    static const char refused[] = "refused 1 BadLine\n", inside[] = "refused 2 BadLine\n";
    tfpg_session session = TFPG_SESSION;
    expect("a line before it is open", tfpg_line(&session, TEXT("1 tick")), TFPG_ENDED, 0, 0, 0);
    expect("a block before it is open", tfpg_block(&session, room, sizeof room), TFPG_ENDED, 0, 0, 0);
    expect("an event before it is open", tfpg_event(&session, 1, TFPG_TICK, 0), TFPG_ENDED, 0, 0, 0);
    try_closed(&session);
    tfpg_close(&session);
    expect("opened", tfpg_open(&session, TEXT(graph), 1, 0, 1000), TFPG_DONE, 0, 0, sizeof head - 1);
    expect("no room for its first line", tfpg_block(&session, room, 3), TFPG_ROOM_TOO_SMALL, 0, 0, sizeof head - 1);
    expect("its first line", tfpg_block(&session, room, sizeof room), TFPG_DONE, 0, 0, sizeof head - 1);
    if (memcmp(room, head, sizeof head - 1)) wrong++, puts("its first line is another");
    expect("an empty line", tfpg_line(&session, TEXT("")), TFPG_DONE, 0, 0, sizeof refused - 1);
    expect("a line end inside", tfpg_line(&session, TEXT("1 tick\n2 tick")), TFPG_DONE, 0, 0, sizeof inside - 1);
    expect("its block", tfpg_block(&session, room, sizeof room), TFPG_DONE, 0, 0, sizeof inside - 1);
    if (memcmp(room, inside, sizeof inside - 1)) wrong++, puts("the block is another");
    expect("opened again", tfpg_open(&session, TEXT(graph), 1, 0, 1000), TFPG_DONE, 0, 0, sizeof head - 1);
    expect("opened by a bad graph", tfpg_open(&session, TEXT(bad), 1, 0, 1000), TFPG_BAD_GRAPH, TFPG_GRAPH_DUPLICATE_NAME, 3, 0);
    expect("a line after that", tfpg_line(&session, TEXT("1 tick")), TFPG_ENDED, 0, 0, 0);
    expect("opened once more", tfpg_open(&session, TEXT(graph), 1, 0, 1000), TFPG_DONE, 0, 0, sizeof head - 1);
    try_numbers(&session);
    expect("opened to be filled", tfpg_open(&session, TEXT(graph), 1, 0, 1000), TFPG_DONE, 0, 0, sizeof head - 1);
    try_refusals(&session);
    tfpg_close(&session);
    try_closed(&session);
    tfpg_close(&session);
    expect("a block after the end", tfpg_block(&session, room, sizeof room), TFPG_ENDED, 0, 0, 0);
}

int main(void) {
    memset(ones, 1, sizeof ones);
    try_texts();
    try_answers();
    try_session();
    return wrong;
}
