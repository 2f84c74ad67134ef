/* Says of each line whether it was refused and why, what is ranked, whether that changed, and how long it took. It reads no text for that:
 *
 *   monitor GRAPH FAILURE < LOG
 *
 * A star marks the sets in which FAILURE is. Last comes a tick after the log. It ends with the last status, or 70: a read failed. */
#include "tfpg.h"
#include <inttypes.h>
#include <stdio.h>
#include <string.h>
#include <time.h>

static tfpg_session session = TFPG_SESSION;

/* Whether there is a next line, and no read failed. Of one that is too long it has enough to be refused. */
static bool next_line(uint8_t *line, size_t *count) {
    int byte = getc(stdin);
    if (byte == EOF) return false;
    for (*count = 0; byte != EOF && byte != '\n'; byte = getc(stdin)) if (*count < 4097) line[(*count)++] = (uint8_t)byte;
    return !ferror(stdin);
}

/* Prints what the last line brought, and returns the time of the last event. */
static uint64_t print_result(uint32_t watched, clock_t took) {
    tfpg_result result;
    tfpg_ranked one;
    uint64_t no_times = 0;
    uint8_t name[32];
    tfpg_result_of(&session, &result);
    printf("line %" PRIu64 " refused %s changed %" PRIu32 " open %" PRIu32 ": %.0f microseconds\n", result.line,
           tfpg_cause_name(TFPG_DONE, result.refusal), result.changed, result.open, (double)took * 1e6 / CLOCKS_PER_SEC);
    for (uint32_t rank = 0; tfpg_ranked_at(&session, rank, &one, &no_times, 0).status == TFPG_DONE; rank++) {
        printf("%c %" PRIx64 " cost %" PRIu64 " robust %u/%u:", " *"[one.failures >> watched & 1], one.failures, one.cost,
               (unsigned)one.alarmed, (unsigned)one.monitored);
        for (uint32_t failure = 0; failure < 64; failure++)
            if (one.failures >> failure & 1)
                printf(" %.*s", (int)tfpg_name(&session, TFPG_FAILURE_NAME, failure, name, sizeof name).count, (char *)name);
        putchar('\n');
    }
    return result.now;
}

int main(int count, char **words) {
    static uint8_t graph[1 << 24], line[4097];
    FILE *file = count == 3 ? fopen(words[1], "rb") : NULL;
    uint32_t watched = 0;
    uint64_t now = 0;
    size_t end = file ? fread(graph, 1, sizeof graph, file) : 0;
    if (!file || !feof(file)) return 70;
    tfpg_answer answer = tfpg_open(&session, graph, end, 2, 0, 1000);
    if (answer.status == TFPG_DONE) answer = tfpg_index(&session, TFPG_FAILURE_NAME, (uint8_t *)words[2], strlen(words[2]), &watched);
    for (bool is_line = true; is_line && answer.status == TFPG_DONE;) {
        is_line = next_line(line, &end);
        clock_t begun = clock();
        answer = is_line ? tfpg_line(&session, line, end) : tfpg_event(&session, now, TFPG_TICK, 0);
        if (answer.status == TFPG_DONE) now = print_result(watched, clock() - begun);
    }
    fprintf(stderr, "monitor: %s %s\n", tfpg_status_name(answer.status), tfpg_cause_name(answer.status, answer.cause));
    tfpg_close(&session);
    return ferror(stdin) ? 70 : (int)answer.status;
}
