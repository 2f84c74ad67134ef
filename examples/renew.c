/* Diagnoses a log that is longer than a session takes, and writes each block at once:
 *
 *   renew GRAPH [EVENTS] < LOG > REPORTS
 *
 * Where the session is full it is opened anew, and is first given the lines that still matter. They are at most 3,074, and say all that the
 * lines so far said (`docs/c.md`, "A full log"). So the output is one report after the other, and each begins with the first line of a
 * report. With EVENTS a session is also taken for full once it has accepted so many lines, if fewer of them matter.
 *
 * It ends as `embed` does, and with 7 where more than 1,024 changes of the mode matter. That line is then the last of the output: refused.
 */
#include "tfpg.h"

#include <stdio.h>
#include <stdlib.h>
#include <string.h>

enum { MOST_KEPT = 2 * 512 + 512 + 513 + 1024 + 1, MOST_LINE = 4097 };

typedef enum { ALARM, SILENT, SWEEP, TICK, MODE } line_kind;

/* An accepted line. Its name, if it has one, begins at `name`. */
typedef struct {
    char text[64];
    line_kind kind;
    size_t name;
    bool is_first; /* the first alarm of its node */
} kept_line;

typedef struct {
    uint8_t *bytes;
    size_t count;
} text;

static kept_line kept[MOST_KEPT];
static size_t kept_count;
static tfpg_session session = TFPG_SESSION;
static text graph, block;
static unsigned long accepted;

static void give_up(const char *what, int status) {
    perror(what);
    exit(status);
}

static void drop(size_t place) {
    kept_count--;
    memmove(&kept[place], &kept[place + 1], (kept_count - place) * sizeof *kept);
}

static line_kind kind_of(const char *word) {
    switch (word[0]) {
    case 'a': return ALARM;
    case 'm': return MODE;
    case 't': return TICK;
    default: return word[1] == 'i' ? SILENT : SWEEP;
    }
}

/* The place of the last line of this kind and, if one is given, this name; or -1. */
static long last_of(line_kind kind, const char *name) {
    long place = (long)kept_count - 1;
    while (place >= 0 && (kept[place].kind != kind || (name && strcmp(kept[place].text + kept[place].name, name) != 0))) place--;
    return place;
}

/* Whether a node had its first alarm after this place. */
static bool is_news_after(long place) {
    for (size_t later = (size_t)place + 1; later < kept_count; later++)
        if (kept[later].is_first) return true;
    return false;
}

/* Keeps an accepted line, and drops those that it makes needless. */
static void keep(const uint8_t *bytes, size_t count) {
    kept_line line = {"", TICK, 0, false};
    if (count >= sizeof line.text) give_up("an accepted line is too long", 1);
    memcpy(line.text, bytes, count);
    char *word = strchr(line.text, ' ') + 1, *name = strchr(word, ' ');
    name = name ? name + 1 : line.text + count;
    line.name = (size_t)(name - line.text);
    line.kind = kind_of(word);

    /* A tick says what time it is, as each later line does. */
    if (kept_count && kept[kept_count - 1].kind == TICK) drop(kept_count - 1);
    long last = last_of(line.kind, line.kind == SWEEP || line.kind == MODE ? NULL : name);
    switch (line.kind) {
    case ALARM: /* the first alarm of a node and the last one say what all of them say */
        line.is_first = last < 0;
        if (last >= 0 && !kept[last].is_first) drop((size_t)last);
        break;
    case SILENT: /* so does the last silence of a node */
        if (last >= 0) drop((size_t)last);
        break;
    case SWEEP: /* and the last sweep, for the nodes that had no alarm when it came */
        if (last >= 0 && !is_news_after(last)) drop((size_t)last);
        break;
    case MODE: /* of changes at one time the last decides, and one to the mode that is already there says what a tick says */
        if (last >= 0 && strncmp(kept[last].text, line.text, (size_t)(word - line.text)) == 0) {
            drop((size_t)last);
            last = last_of(MODE, NULL);
        }
        if (last >= 0 && strcmp(kept[last].text + kept[last].name, name) == 0) {
            line.kind = TICK;
            memcpy(word, "tick", sizeof "tick");
        }
        break;
    case TICK: break;
    }
    kept[kept_count++] = line;
}

/* Writes what the session says now, and ends where a call was not done. */
static void write_block(tfpg_answer answer) {
    if (answer.status == TFPG_DONE && answer.count > block.count) {
        block.count = answer.count;
        block.bytes = (uint8_t *)realloc(block.bytes, block.count);
        if (!block.bytes) give_up("memory", TFPG_NO_MEMORY);
    }
    if (answer.status == TFPG_DONE) answer = tfpg_block(&session, block.bytes, block.count);
    if (answer.status != TFPG_DONE) exit((int)answer.status);
    if (fwrite(block.bytes, 1, answer.count, stdout) != answer.count || fflush(stdout)) give_up("report", 6);
}

/* Opens the session, anew if it was open, and gives it the lines that matter. */
static void open_session(void) {
    write_block(tfpg_open(&session, graph.bytes, graph.count, 2, 0, 1000));
    for (size_t place = 0; place < kept_count; place++)
        write_block(tfpg_line(&session, (const uint8_t *)kept[place].text, strlen(kept[place].text)));
    accepted = kept_count;
}

/* Whether the block says that the session is full. */
static bool is_full(size_t count) {
    static const char log[] = " LogFull\n", modes[] = " ModesFull\n";
    return block.bytes[1] == 'e' && (memcmp(block.bytes + count - (sizeof log - 1), log, sizeof log - 1) == 0 ||
                                     memcmp(block.bytes + count - (sizeof modes - 1), modes, sizeof modes - 1) == 0);
}

/* Gives a line to the session, and if it is full, to one that is opened anew. */
static void take(const uint8_t *line, size_t count) {
    tfpg_answer answer = tfpg_line(&session, line, count);
    write_block(answer);
    if (is_full(answer.count)) {
        open_session();
        answer = tfpg_line(&session, line, count);
        write_block(answer);
        if (is_full(answer.count)) exit(TFPG_TOO_MUCH_INPUT);
    }
    if (block.bytes[1] == 'o') {
        keep(line, count);
        accepted++;
    }
}

/* Reads the next line, without its line end. Of one that is too long it reads enough to be refused. Returns whether there was one, and no
 * read failed. */
static bool next_line(uint8_t *line, size_t *count) {
    int byte = getc(stdin);
    if (byte == EOF) return false;
    for (*count = 0; byte != EOF && byte != '\n'; byte = getc(stdin))
        if (*count < MOST_LINE) line[(*count)++] = (uint8_t)byte;
    return !ferror(stdin);
}

static void read_graph(const char *name) {
    FILE *file = fopen(name, "rb");
    size_t more;
    if (!file) give_up(name, 70);
    do {
        graph.bytes = (uint8_t *)realloc(graph.bytes, graph.count + 4096);
        if (!graph.bytes) give_up("memory", TFPG_NO_MEMORY);
        more = fread(graph.bytes + graph.count, 1, 4096, file);
        graph.count += more;
    } while (more > 0);
    if (ferror(file)) give_up(name, 70);
    fclose(file);
}

int main(int count, char **words) {
    static uint8_t line[MOST_LINE];
    size_t line_count;
    if (count != 2 && count != 3) return TFPG_OUT_OF_RANGE;
    unsigned long events = count == 3 ? strtoul(words[2], NULL, 10) : (unsigned long)-1;
    read_graph(words[1]);
    open_session();
    while (next_line(line, &line_count)) {
        if (accepted >= events && kept_count < accepted) open_session();
        take(line, line_count);
    }
    if (ferror(stdin)) give_up("log", 70);
    tfpg_close(&session);
    free(graph.bytes);
    free(block.bytes);
    return TFPG_DONE;
}
