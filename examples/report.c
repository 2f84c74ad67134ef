/* Diagnoses a whole log, writes its report, and lets it be judged:
 *
 *   report GRAPH LOG > REPORT
 *
 * It ends with the status of the first call that is not done, with 6 where a write failed, and with 70 where a file could not be read.
 */
#include "tfpg.h"

#include <stdio.h>
#include <stdlib.h>

typedef struct {
    uint8_t *bytes;
    size_t count;
} text;

/* Says what failed, by the C library's word for it, and ends. */
static void give_up(const char *what, int status) {
    perror(what);
    exit(status);
}

/* The whole file of this name. Where a read fails the program ends: what is left is not taken for the whole. */
static text text_of(const char *name) {
    text read = {NULL, 0};
    size_t room = 0, more;
    FILE *file = fopen(name, "rb");
    if (!file) give_up(name, 70);
    do {
        if (read.count == room) {
            room = room ? 2 * room : 4096;
            read.bytes = (uint8_t *)realloc(read.bytes, room);
            if (!read.bytes) exit(TFPG_NO_MEMORY);
        }
        more = fread(read.bytes + read.count, 1, room - read.count, file);
        read.count += more;
    } while (more > 0);
    if (ferror(file)) give_up(name, 70);
    fclose(file);
    return read;
}

int main(int count, char **words) {
    if (count != 3) return TFPG_OUT_OF_RANGE;
    text graph = text_of(words[1]), log = text_of(words[2]), report = {(uint8_t *)malloc(1), 1};
    if (!report.bytes) return TFPG_NO_MEMORY;

    tfpg_answer answer = tfpg_report(graph.bytes, graph.count, log.bytes, log.count, 2, 0, 1000, report.bytes, report.count);
    while (answer.status == TFPG_ROOM_TOO_SMALL) {
        report.count = answer.count;
        free(report.bytes);
        report.bytes = (uint8_t *)malloc(report.count);
        if (!report.bytes) return TFPG_NO_MEMORY;
        answer = tfpg_report(graph.bytes, graph.count, log.bytes, log.count, 2, 0, 1000, report.bytes, report.count);
    }
    if (answer.status == TFPG_DONE) {
        if (fwrite(report.bytes, 1, answer.count, stdout) != answer.count || fflush(stdout)) give_up("report", 6);
        answer = tfpg_check(graph.bytes, graph.count, log.bytes, log.count, report.bytes, answer.count);
        if (answer.status == TFPG_DONE) fprintf(stderr, "accepted %llu\n", (unsigned long long)answer.count);
    }
    free(graph.bytes);
    free(log.bytes);
    free(report.bytes);
    return (int)answer.status;
}
