/* Writes what `ask`, `predict` and `explain` write, with `k` 2, no doubt and a budget of 1,000:
 *
 *   answers ask GRAPH LOG > QUESTIONS
 *   answers predict GRAPH LOG NODE > FORECASTS        up to an hour after the last event
 *   answers explain GRAPH LOG MAP > VERDICT
 *
 * It ends with the status of the call, with 6 where a write failed, and with 70 where a file could not be read.
 */
#include "tfpg.h"

#include <stdio.h>
#include <stdlib.h>
#include <string.h>

typedef struct {
    uint8_t *bytes;
    size_t count;
} text;

/* Says what failed, by the C library's word for it, and ends. */
static void give_up(const char *what, int status) {
    perror(what);
    exit(status);
}

/* The whole file of this name. Where a read fails the program ends: what is left is not taken for the whole. */
static text text_of(const char *name) {
    text read = {NULL, 0};
    size_t room = 0, more;
    FILE *file = fopen(name, "rb");
    if (!file) give_up(name, 70);
    do {
        if (read.count == room) {
            room = room ? 2 * room : 4096;
            read.bytes = (uint8_t *)realloc(read.bytes, room);
            if (!read.bytes) exit(TFPG_NO_MEMORY);
        }
        more = fread(read.bytes + read.count, 1, room - read.count, file);
        read.count += more;
    } while (more > 0);
    if (ferror(file)) give_up(name, 70);
    fclose(file);
    return read;
}

/* Answers the command, in this room. */
static tfpg_answer answer(const char *command, text graph, text log, text other, text room) {
    static const tfpg_prediction_terms hour = {2, 0, 1000, 3600000};
    if (!strcmp(command, "ask"))
        return tfpg_ask(graph.bytes, graph.count, log.bytes, log.count, 2, 0, 1000, room.bytes, room.count);
    if (!strcmp(command, "predict"))
        return tfpg_predict(graph.bytes, graph.count, log.bytes, log.count, other.bytes, other.count, &hour, room.bytes, room.count);
    return tfpg_explain(graph.bytes, graph.count, log.bytes, log.count, other.bytes, other.count, room.bytes, room.count);
}

int main(int count, char **words) {
    int asks = count == 4 && !strcmp(words[1], "ask"), predicts = count == 5 && !strcmp(words[1], "predict");
    if (!asks && !predicts && !(count == 5 && !strcmp(words[1], "explain"))) return TFPG_OUT_OF_RANGE;
    text graph = text_of(words[2]), log = text_of(words[3]), other = {(uint8_t *)words[count - 1], strlen(words[count - 1])};
    if (!asks && !predicts) other = text_of(words[4]);

    text room = {NULL, 40000}; /* enough for questions and for a verdict */
    tfpg_answer said;
    for (;;) {
        room.bytes = (uint8_t *)malloc(room.count);
        if (!room.bytes) return TFPG_NO_MEMORY;
        said = answer(words[1], graph, log, other, room);
        if (said.status != TFPG_ROOM_TOO_SMALL) break;
        free(room.bytes);
        room.count = said.count;
    }
    if (said.status == TFPG_DONE && (fwrite(room.bytes, 1, said.count, stdout) != said.count || fflush(stdout))) give_up("answer", 6);
    if (said.status != TFPG_DONE)
        fprintf(stderr, "%s %s, line %llu\n", tfpg_status_name(said.status), tfpg_cause_name(said.status, said.cause),
                (unsigned long long)said.line);
    free(graph.bytes);
    free(log.bytes);
    if (!asks && !predicts) free(other.bytes);
    free(room.bytes);
    return (int)said.status;
}
