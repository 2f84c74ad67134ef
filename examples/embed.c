/* Diagnoses a log while it is written, and writes each block at once:
 *
 *   embed GRAPH < LOG > REPORT
 *
 * It ends with the status of the first call that is not done, with 6 where a write failed, and with 70 where a read did. A line that is cut
 * by a failed read is not handed on: the report is then that of the lines before it.
 */
#include "tfpg.h"

#include <stdio.h>
#include <stdlib.h>

typedef struct {
    uint8_t *bytes;
    size_t count, room;
} text;

/* Says what failed, by the C library's word for it, and ends. */
static void give_up(const char *what, int status) {
    perror(what);
    exit(status);
}

/* Makes room for so many bytes, or ends. */
static void make_room(text *into, size_t wanted) {
    if (wanted <= into->room) return;
    into->room = wanted < 2 * into->room ? 2 * into->room : wanted;
    into->bytes = (uint8_t *)realloc(into->bytes, into->room);
    if (!into->bytes) give_up("memory", TFPG_NO_MEMORY);
}

/* Reads bytes up to a line end or up to the end of the file, without the line end. Returns whether there was any, and no read failed. */
static bool read_up_to(FILE *file, int end, text *into) {
    int byte = getc(file);
    if (byte == EOF) return false;
    for (into->count = 0; byte != EOF && byte != end; byte = getc(file)) {
        make_room(into, into->count + 1);
        into->bytes[into->count++] = (uint8_t)byte;
    }
    return !ferror(file);
}

int main(int count, char **words) {
    tfpg_session session = TFPG_SESSION;
    text graph = {NULL, 0, 0}, line = {NULL, 0, 0}, room = {NULL, 0, 0};
    if (count != 2) return TFPG_OUT_OF_RANGE;
    FILE *file = fopen(words[1], "rb");
    if (!file) give_up(words[1], 70);
    make_room(&graph, 1);
    make_room(&line, 1);
    make_room(&room, 1);
    read_up_to(file, EOF, &graph);
    if (ferror(file)) give_up(words[1], 70);
    fclose(file);

    tfpg_answer answer = tfpg_open(&session, graph.bytes, graph.count, 2, 0, 1000);
    while (answer.status == TFPG_DONE) {
        make_room(&room, answer.count);
        answer = tfpg_block(&session, room.bytes, room.room);
        if (answer.status != TFPG_DONE) break;
        if (fwrite(room.bytes, 1, answer.count, stdout) != answer.count || fflush(stdout)) give_up("report", 6);
        if (!read_up_to(stdin, '\n', &line)) break;
        answer = tfpg_line(&session, line.bytes, line.count);
    }
    tfpg_close(&session);
    if (answer.status == TFPG_DONE && ferror(stdin)) give_up("log", 70);
    free(graph.bytes);
    free(line.bytes);
    free(room.bytes);
    return (int)answer.status;
}
