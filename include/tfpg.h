/* The diagnoser of timed failure propagation graphs, for C.
 *
 * Texts are bytes, given by a pointer and their number. `docs/formats.md` has the text of a graph, of a log, of a report and of a map.
 * Times in them are milliseconds. A text needs no byte 0 at its end, and none is written after one. A pointer is never NULL, also where the
 * number is 0.
 *
 * Memory: a call reads the texts and the terms that it is given only while it runs, and keeps no pointer to them; nothing writes them
 * meanwhile. What a call writes is the caller's: a session, a room, a result, a ranked hypothesis, times, an index. It writes nothing else
 * of the caller's. Each of these overlaps nothing else of the same call, and nothing else reads or writes them while the call runs. A room
 * is written only if the call is done, and behind the text it stays as it is. How much stack a call needs is said by `TFPG_STACK_OF_`.
 *
 * The library takes memory of its own, and says so if there is none. The calls over whole texts, `tfpg_report`, `tfpg_check`, `tfpg_ask`,
 * `tfpg_predict` and `tfpg_explain`, give all of it back before they return, and each may be made again, whatever it answered. An open
 * session has memory until it is closed. What is in this memory is the library's: a program reads, writes and calls nothing of it.
 * The library asks for it by three functions, `rattle_alloc`, `rattle_realloc` and `rattle_dealloc`. The program links one of these:
 *
 * - The toolchain's archive `liblibc_c.a`, which defines them over `malloc`, `realloc` and `free`. These have to be of one allocator, and a
 *   block has to be aligned to each power of two up to 16 that divides its size, as to 8 for 24 bytes.
 * - Functions of its own, as `examples/pool.c` has them. `examples/pool.h` says what they have to do. They call nothing of this header.
 *
 * Threads: calls may run at the same time, each with a room and a session of its own. The three functions then have to bear it, as those of
 * the archive do. A session may go from one thread to another between two calls, if the program orders these by a lock, by an atomic that
 * is sequentially consistent, or by starting or joining a thread. No call may be made from a signal handler, nor from the forked child of a
 * process with threads. Where two calls have one session at the same time nothing is promised, of this session or of the program: a call has
 * the session closed while it runs, so the other one may answer TFPG_ENDED, or both may use and give back the same memory.
 *
 * Nothing checks what a C program passes. The library's statements hold for texts, rooms and sessions that are there.
 *
 * The library is built for processors of x86-64-v2, which have `popcnt` and SSE4.2, and for the System V calling convention, as Linux has it.
 * The header is C99 and later, and C++11 and later.
 */
#ifndef TFPG_H
#define TFPG_H

#include <stdbool.h>
#include <stddef.h>
#include <stdint.h>

#ifdef __cplusplus
extern "C" {
#endif

/* The version of this header. It rises with each change of a declaration or a number in it. The library does not say which one it has. */
#define TFPG_HEADER_VERSION 4
#define TFPG_VERSION "0.1.0"

/* How a call ended. Where more than one cause holds, the first one is said, in the order of the program: a number out of its range, a fault
 * of the graph, too many hypotheses, a log that is too long. `tfpg_check` says first that a log is too long, then a fault of the graph, and
 * then what is wrong with the report. `tfpg_ask`, `tfpg_predict` and `tfpg_explain` say the first of these: a number out of its range, a
 * text that is too long, a fault of the graph, no room for a probe, no such node, too many hypotheses, a faulty map. Memory may run out
 * before any of these is found. The numbers up to 8 are those with which the program ends; 5 and 6, a failed read and a failed write, are
 * not of a call. Where the program ends with 1 for a map, with 2 for a node and with 3 for a full graph, a call says 12, 11 and 13. */
enum tfpg_status {
    /* It is done. */
    TFPG_DONE = 0,
    /* The report is not accepted: `line` and `cause` are those of the first test that it fails. A block is tested once all its lines are
     * there, so a line before that one may be wrong too. */
    TFPG_NOT_ACCEPTED = 1,
    /* `k` is more than 64, `doubt` more than 4, the budget 0 or more than 10^12, or `ahead` more than 10^12. */
    TFPG_OUT_OF_RANGE = 2,
    /* The graph's text spells no valid graph: `line` and `cause` are those of its first fault. */
    TFPG_BAD_GRAPH = 3,
    /* There are more than 4,096 hypotheses: `count_high` * 2^64 + `count`. */
    TFPG_TOO_MANY_HYPOTHESES = 4,
    /* A text is too long. `tfpg_report` takes a log of at most 2^32 bytes, and each other call one of at most 2^24. `tfpg_explain` takes a
     * map of at most 2^32 bytes, and `tfpg_check` a report of as many. Of a longer report it may find another cause first. */
    TFPG_TOO_MUCH_INPUT = 7,
    /* Memory ran out. */
    TFPG_NO_MEMORY = 8,
    /* The text has `count` bytes, and the room fewer; or there are `count` nodes, and room for fewer times. Nothing was written. */
    TFPG_ROOM_TOO_SMALL = 9,
    /* The session is closed. */
    TFPG_ENDED = 10,
    /* There is no such kind, name, index or rank. Nothing was written. */
    TFPG_NO_SUCH = 11,
    /* A line of the map is faulty: `line` is that of the first one. A map without a line is faulty at line 1. */
    TFPG_BAD_MAP = 12,
    /* The graph has 512 nodes or 2,048 edges, and no room for the probe of `tfpg_predict`, a node and an edge into it that the call adds.
     * `cause` is that of a graph with one more: TFPG_GRAPH_TOO_MANY_NODES, or if there are fewer nodes TFPG_GRAPH_TOO_MANY_EDGES. */
    TFPG_FULL_GRAPH = 13
};

/* What is wrong with a graph, in the words of `docs/formats.md`. */
enum tfpg_graph_cause {
    TFPG_GRAPH_BAD_HEADER = 1,
    TFPG_GRAPH_BAD_LINE = 2,
    TFPG_GRAPH_BAD_NAME = 3,
    TFPG_GRAPH_DUPLICATE_NAME = 4,
    TFPG_GRAPH_UNKNOWN_NAME = 5,
    TFPG_GRAPH_BAD_NUMBER = 6,
    TFPG_GRAPH_NUMBER_TOO_LARGE = 7,
    TFPG_GRAPH_MIN_OVER_MAX = 8,
    TFPG_GRAPH_EDGE_INTO_FAILURE = 9,
    TFPG_GRAPH_SELF_EDGE = 10,
    TFPG_GRAPH_DUPLICATE_EDGE = 11,
    TFPG_GRAPH_NO_MODES = 12,
    TFPG_GRAPH_NO_INCOMING = 13,
    TFPG_GRAPH_ZERO_CYCLE = 14,
    TFPG_GRAPH_TOO_MANY_NODES = 15,
    TFPG_GRAPH_TOO_MANY_FAILURES = 16,
    TFPG_GRAPH_TOO_MANY_EDGES = 17,
    TFPG_GRAPH_TOO_MANY_MODES = 18,
    TFPG_GRAPH_TOO_MANY_INCOMING = 19,
    TFPG_GRAPH_MISSING_END = 20,
    TFPG_GRAPH_AFTER_END = 21
};

/* Why a report is not accepted, in the words of `docs/formats.md`. */
enum tfpg_report_cause {
    TFPG_REPORT_AFTER_CLOSED = 1,
    TFPG_REPORT_NOT_REUSABLE = 2,
    TFPG_REPORT_NOT_A_CLAUSE = 3,
    TFPG_REPORT_NOT_A_FACT = 4,
    TFPG_REPORT_NOT_ON_PATH = 5,
    TFPG_REPORT_UNCHAINED = 6,
    TFPG_REPORT_NOT_NEGATIVE = 7,
    TFPG_REPORT_BAD_REPORT = 8,
    TFPG_REPORT_SURPLUS = 9,
    TFPG_REPORT_WRONG_ROUND = 10,
    TFPG_REPORT_WRONG_HYPOTHESIS = 11,
    TFPG_REPORT_WRONG_RANKED = 12,
    TFPG_REPORT_NOT_A_TRACE = 13,
    TFPG_REPORT_WRONG_OPEN = 14,
    TFPG_REPORT_WRONG_REJECTED = 15,
    TFPG_REPORT_WRONG_STATUS = 16,
    TFPG_REPORT_WRONG_COUNTS = 17,
    TFPG_REPORT_ENDS_EARLY = 18
};

/* Why the log refuses a line, in the words of `docs/formats.md`. 0 is none of them: the line brought a round. */
enum tfpg_refusal {
    TFPG_LOG_BAD_LINE = 1,
    TFPG_LOG_BAD_NUMBER = 2,
    TFPG_LOG_TIME_TOO_LARGE = 3,
    TFPG_LOG_TIME_BACK = 4,
    TFPG_LOG_UNKNOWN_NAME = 5,
    TFPG_LOG_NOT_MONITORED = 6,
    TFPG_LOG_NOT_A_MODE = 7,
    TFPG_LOG_LOG_FULL = 8,
    TFPG_LOG_MODES_FULL = 9,
    TFPG_LOG_TOO_LONG = 10
};

/* What has names: nodes by their numbers, failure modes by their positions, and modes, each counted from 0 in the order of the graph. */
enum tfpg_name_kind { TFPG_NODE_NAME = 1, TFPG_FAILURE_NAME = 2, TFPG_MODE_NAME = 3 };

/* The kinds of event. */
enum tfpg_event_kind { TFPG_ALARM = 1, TFPG_SILENT = 2, TFPG_SWEEP = 3, TFPG_TICK = 4, TFPG_MODE = 5 };

/* The time of a node that is never active. It is above each time of a log. */
#define TFPG_NEVER UINT64_C(1000000000001)

/* The limits of `docs/formats.md`, in bytes, items and milliseconds. */
#define TFPG_MAX_LINE 4096U      /* bytes of a line, */
#define TFPG_MAX_NAME 32U        /* of a name, */
#define TFPG_MAX_FILE 16777216U  /* and of a log, but for `tfpg_report` */
#define TFPG_MAX_INPUT UINT64_C(4294967296) /* bytes of a log for `tfpg_report`, of a map, and of a report */
#define TFPG_MAX_NODES 512U
#define TFPG_MAX_FAILURES 64U
#define TFPG_MAX_EDGES 2048U
#define TFPG_MAX_MODES 64U
#define TFPG_MAX_INCOMING 32U /* edges into a node */
#define TFPG_MAX_RARITY 1000000U
#define TFPG_MAX_TIME UINT64_C(1000000000000) /* a time, a lag, a delay */
#define TFPG_MAX_EVENTS 65536U                /* accepted lines of a log, */
#define TFPG_MAX_CHANGES 1024U                /* and those of them that change the mode */
#define TFPG_MAX_HYPOTHESES 4096U
#define TFPG_MAX_K 64U
#define TFPG_MAX_DOUBT 4U
#define TFPG_MAX_BUDGET UINT64_C(1000000000000)
#define TFPG_MAX_AHEAD UINT64_C(1000000000000)
#define TFPG_MAX_QUESTIONS 37426U /* bytes that `tfpg_ask` writes, */
#define TFPG_MAX_VERDICT 59U      /* and `tfpg_explain` */

/* The bytes of stack that a thread has to have left where it makes a call, whatever the texts and the terms are. Most of it is for graphs of
 * 512 nodes: what lists the sets of a graph calls itself once for each member.
 *
 * By the code of the library `tfpg_check` takes 172,712 bytes at most, `tfpg_explain` 166,392, the other calls over whole texts and
 * `tfpg_open` 158,064, `tfpg_line` and `tfpg_event` 5,232, `tfpg_block` 1,712, and each other call 648. The rest is for the functions of the
 * program that take memory, and for those of the C library that copy bytes. With `malloc` the deepest inputs took 171,952 bytes, 166,240,
 * 147,192, 5,024, 2,120 and 824. These numbers are tested, and not proved. */
#define TFPG_STACK_OF_CHECK (192 * 1024)
#define TFPG_STACK_OF_EXPLAIN (192 * 1024)
#define TFPG_STACK_OF_REPORT (176 * 1024)
#define TFPG_STACK_OF_ASK (176 * 1024)
#define TFPG_STACK_OF_PREDICT (176 * 1024)
#define TFPG_STACK_OF_OPEN (176 * 1024)
#define TFPG_STACK_OF_LINE (16 * 1024)
#define TFPG_STACK_OF_EVENT (16 * 1024)
#define TFPG_STACK_OF_BLOCK (8 * 1024)
#define TFPG_STACK_OF_RESULT_OF (8 * 1024)
#define TFPG_STACK_OF_RANKED_AT (8 * 1024)
#define TFPG_STACK_OF_INDEX (8 * 1024)
#define TFPG_STACK_OF_NAME (8 * 1024)
#define TFPG_STACK_OF_CLOSE (8 * 1024)

/* What a call answers. What a status says nothing of is 0. */
typedef struct {
    uint32_t status;     /* a `tfpg_status` */
    uint32_t cause;      /* why a graph or a report is refused, or a graph is full: a `tfpg_graph_cause` or a `tfpg_report_cause` */
    uint64_t line;       /* at which line, counted from 1 */
    uint64_t count;      /* how many bytes a text has, how many rounds or nodes there are, or the last 64 bits of a number of hypotheses */
    uint64_t count_high; /* the first 64 bits of that number */
} tfpg_answer;

/* Diagnoses a whole log, and writes its report to the front of the room.
 *
 * A hypothesis has at most `k` members, which are failure modes and monitors that it doubts, at most `doubt` of them monitors, and at most
 * `budget` splits in a round. `count` is the number of bytes of the report, also if the room is too small. Then ask again with room enough:
 * the whole diagnosis is made again. That it makes the same report again is tested and not proved, so be ready for TFPG_ROOM_TOO_SMALL once
 * more.
 *
 * TFPG_DONE, TFPG_ROOM_TOO_SMALL, TFPG_OUT_OF_RANGE, TFPG_BAD_GRAPH, TFPG_TOO_MANY_HYPOTHESES, TFPG_TOO_MUCH_INPUT, TFPG_NO_MEMORY */
tfpg_answer tfpg_report(const uint8_t *graph, size_t graph_count, const uint8_t *log, size_t log_count, uint32_t k,
                        uint32_t doubt, uint64_t budget, uint8_t *room, size_t room_count);

/* Judges a report by the graph and the log, whoever wrote it. If it is accepted, `count` is the number of its rounds.
 *
 * TFPG_DONE, TFPG_NOT_ACCEPTED, TFPG_BAD_GRAPH, TFPG_TOO_MANY_HYPOTHESES, TFPG_TOO_MUCH_INPUT, TFPG_NO_MEMORY */
tfpg_answer tfpg_check(const uint8_t *graph, size_t graph_count, const uint8_t *log, size_t log_count,
                       const uint8_t *report, size_t report_count);

/* Says which observation would tell most after the log, and writes the questions to the front of the room: a text as the program writes it
 * for `ask`, which `docs/formats.md` has under "Questions after a log". It has at most 37,426 bytes. The log is diagnosed on terms as
 * `tfpg_report` has them, and the budget is also that of each outcome, one hypothesis after a silence or an alarm. Lines that the log
 * refuses are passed over. `count` and a room that is too small are as with `tfpg_report`.
 *
 * TFPG_DONE, TFPG_ROOM_TOO_SMALL, TFPG_OUT_OF_RANGE, TFPG_TOO_MUCH_INPUT, TFPG_BAD_GRAPH, TFPG_TOO_MANY_HYPOTHESES, TFPG_NO_MEMORY */
tfpg_answer tfpg_ask(const uint8_t *graph, size_t graph_count, const uint8_t *log, size_t log_count, uint32_t k, uint32_t doubt,
                     uint64_t budget, uint8_t *room, size_t room_count);

/* The terms of a prediction. */
typedef struct {
    uint32_t k;      /* the terms of the diagnosis, */
    uint32_t doubt;  /* as `tfpg_report` has them; */
    uint64_t budget; /* that of the rounds, and of each search for a forecast */
    uint64_t ahead;  /* so many milliseconds after the last event are looked at, but none after 10^12 */
} tfpg_prediction_terms;

/* Says when the node of this name becomes active at the earliest, by each ranked hypothesis and the log, and writes the forecasts with their
 * evidence to the front of the room: a text as the program writes it for `predict`, which `docs/formats.md` has under "Prediction". That
 * time may lie before the last event, since a node may be active already. An open hypothesis has no forecast, and a log without an accepted
 * line none at all. Lines that the log refuses are passed over. `count` and a room that is too small are as with `tfpg_report`.
 *
 * TFPG_DONE, TFPG_ROOM_TOO_SMALL, TFPG_OUT_OF_RANGE, TFPG_TOO_MUCH_INPUT, TFPG_BAD_GRAPH, TFPG_FULL_GRAPH, TFPG_NO_SUCH,
 * TFPG_TOO_MANY_HYPOTHESES, TFPG_NO_MEMORY */
tfpg_answer tfpg_predict(const uint8_t *graph, size_t graph_count, const uint8_t *log, size_t log_count, const uint8_t *node,
                         size_t node_count, const tfpg_prediction_terms *terms, uint8_t *room, size_t room_count);

/* Says whether a map, a set of failure modes with a trace, explains the log, and else what is wrong with it first, and writes the verdict
 * to the front of the room: the line that the program writes for `explain`, which `docs/formats.md` has under "Verdict". It has at most 59
 * bytes, and the same texts have the same verdict. A `no` is done too. Monitors that the map ignores, `!NAME` in its set, are ignored in the
 * log. Lines that the log refuses are passed over. `count` is the number of bytes of the verdict, also if the room is too small.
 *
 * TFPG_DONE, TFPG_ROOM_TOO_SMALL, TFPG_TOO_MUCH_INPUT, TFPG_BAD_GRAPH, TFPG_BAD_MAP, TFPG_NO_MEMORY */
tfpg_answer tfpg_explain(const uint8_t *graph, size_t graph_count, const uint8_t *log, size_t log_count, const uint8_t *map,
                         size_t map_count, uint8_t *room, size_t room_count);

/* A diagnosis that takes one line of a log after the other.
 *
 * A session is closed or open. One whose bytes are all 0 is closed, as TFPG_SESSION is, and it has to be that before the first call. From
 * then on a program only hands its address to the calls below, and to one of them at a time. It may move a session, if it uses the old
 * place no more. It may not copy one, since both copies would own the same memory, and neither read nor write what is in it.
 *
 * TFPG_SESSION stands where a session is defined, as `tfpg_session session = TFPG_SESSION;`, and TFPG_CLOSED_SESSION where one is assigned, as
 * `session = TFPG_CLOSED_SESSION;`: the languages have no form for both. Assign it only to a session that is closed, since an open one would
 * lose its memory. */
typedef struct {
    bool is_open;
    uint8_t *held;
} tfpg_session;

#define TFPG_SESSION {false, NULL}
#ifdef __cplusplus
#define TFPG_CLOSED_SESSION (tfpg_session TFPG_SESSION)
#else
#define TFPG_CLOSED_SESSION ((tfpg_session)TFPG_SESSION)
#endif

/* Opens a session of this graph, on terms as `tfpg_report` has them. The text of the session is then the first line of its report, with its
 * line end, and `count` is the number of its bytes.
 *
 * A session that is open is closed first, also if the call then fails. If the call is not done, the session is closed.
 *
 * TFPG_DONE, TFPG_OUT_OF_RANGE, TFPG_BAD_GRAPH, TFPG_TOO_MANY_HYPOTHESES, TFPG_NO_MEMORY */
tfpg_answer tfpg_open(tfpg_session *session, const uint8_t *graph, size_t graph_count, uint32_t k, uint32_t doubt,
                      uint64_t budget);

/* Takes the next line of the log, without its line end. The text of the session is then the block of this line, and `count` is the
 * number of its bytes. The first line of the report, and then the blocks, one after the other, are the report of the lines so far.
 *
 * A line that the log refuses is done too, and the status does not say so: `tfpg_result_of` does, and the block is `refused LINE CAUSE`.
 * LINE counts the calls from 1, and for the cause `TimeBack` there is a fourth word, the time of the last event. Always refused are a line
 * of more than 4,096 bytes, as `TooLong`, an empty one, and one with a line end inside, which is one line here and more in a text. So leave
 * out the line end that `fgets` keeps.
 *
 * Once 65,536 lines are accepted, each further one is refused: as `LogFull`, if it has no other cause. Once 1,024 of them change the mode,
 * each further change of the mode is refused: as `ModesFull`, if it has no other cause. Lines of the other kinds are then taken as before,
 * and judged by the mode before that change. `docs/c.md` says what to do.
 *
 * If memory runs out, the session is closed. A session takes 2^63 - 2 lines at most, and then memory runs out.
 *
 * TFPG_DONE, TFPG_NO_MEMORY, TFPG_ENDED */
tfpg_answer tfpg_line(tfpg_session *session, const uint8_t *line, size_t line_count);

/* Writes the text of the session to the front of the room: the block of the last line, or before any line the first line of the report.
 * `count` is the number of its bytes, also if the room is too small. A program may ask for it any number of times.
 *
 * After `tfpg_open` and `tfpg_line` the session has this text, and the call takes no memory. After `tfpg_event` the call makes it, each
 * time anew, and gives its memory back before it returns. If there is none, the answer is TFPG_NO_MEMORY and nothing is written. The
 * session is open as before, and a program may go on without the text, or ask again.
 *
 * The session is the same after the call. It is not `const`, since the call takes it out of its place and puts it back, and so writes
 * there.
 *
 * TFPG_DONE, TFPG_ROOM_TOO_SMALL, TFPG_NO_MEMORY, TFPG_ENDED */
tfpg_answer tfpg_block(tfpg_session *session, uint8_t *room, size_t room_count);

/* Takes an event as `tfpg_line` takes its line, `TIME KIND NAME`, where NAME is the name of the node or the mode of this index. What comes
 * of it is what comes of that line. An index that nothing has is refused as a name that nothing has, an unknown kind as `BadLine`; as with
 * lines, an earlier cause comes first. A sweep and a tick have no index.
 *
 * The block is not made, so `count` is 0: `tfpg_result_of` has its numbers, and `tfpg_block` makes it for who asks. The session gives the
 * text back that it had. The call makes the line for itself, of at most 61 bytes. If memory runs out, the session is closed.
 *
 * TFPG_DONE, TFPG_NO_MEMORY, TFPG_ENDED */
tfpg_answer tfpg_event(tfpg_session *session, uint64_t time, uint32_t kind, uint32_t index);

/* What the last line brought, and the numbers of the last round. Before the first line all is 0, and before the first round nothing is
 * ranked. */
typedef struct {
    uint32_t refusal; /* why the last line was refused, a `tfpg_refusal`; 0: it brought a round */
    uint32_t changed; /* 1: it brought one that ranks other hypotheses than the round before it, or in another order, or it brought the
                       * first round, and that ranks some. Else 0 */
    uint64_t line;    /* its number, from 1 */
    uint64_t last;    /* if it was refused as TimeBack, the time of the last event. Else 0. It says nothing of the last round */
    uint64_t round;   /* the number of the last round, from 1; 0: there is none yet. A refused line leaves it and what follows */
    uint64_t now;     /* the time of its event */
    uint32_t ranked;  /* how many hypotheses it ranks, */
    uint32_t covered; /* how many are covered by these, */
    uint32_t rejected;
    uint32_t open;
} tfpg_result;

/* Says what the last line brought. `tfpg_result_of`, `tfpg_ranked_at`, `tfpg_index` and `tfpg_name` leave the session as it was, and take no
 * memory.
 *
 * TFPG_DONE, TFPG_ENDED */
tfpg_answer tfpg_result_of(tfpg_session *session, tfpg_result *result);

/* A ranked hypothesis. The bits that are said to be set are set, and no others. */
typedef struct {
    uint64_t failures;   /* bit p: the failure mode of position p is in it */
    uint64_t doubts[8];  /* bit n % 64 of doubts[n / 64]: it doubts the monitor of node n */
    uint64_t cost;
    uint32_t hypothesis; /* its number */
    uint32_t alarmed;    /* so many of the monitored nodes in its reach that it believes have an alarm, */
    uint32_t monitored;  /* of so many; 1 of 1 if there is none */
    uint32_t active;     /* how many nodes are active in its trace */
} tfpg_ranked;

/* Says which hypothesis the last round ranks at this place, 0 for the best, and when each node of its trace became active, or TFPG_NEVER:
 * `times[n]` is that of node n. `count` is the number of nodes. With a `times_count` of 0 no time is written, though `times` is not NULL even
 * then; else there has to be room for all of them. A closed session is said first, then a rank that nothing has, and then too little room.
 *
 * TFPG_DONE, TFPG_NO_SUCH, TFPG_ROOM_TOO_SMALL, TFPG_ENDED */
tfpg_answer tfpg_ranked_at(tfpg_session *session, uint32_t rank, tfpg_ranked *ranked, uint64_t *times, size_t times_count);

/* Finds the index of what has this name. TFPG_DONE, TFPG_NO_SUCH, TFPG_ENDED */
tfpg_answer tfpg_index(tfpg_session *session, uint32_t kind, const uint8_t *name, size_t name_count, uint32_t *index);

/* Writes the name of what has this index to the front of the room. `count` is the number of its bytes, at most 32, also if the room is too
 * small. There is no byte 0 after it.
 *
 * TFPG_DONE, TFPG_NO_SUCH, TFPG_ROOM_TOO_SMALL, TFPG_ENDED */
tfpg_answer tfpg_name(tfpg_session *session, uint32_t kind, uint32_t index, uint8_t *room, size_t room_count);

/* Closes the session, and gives its memory back. A closed session stays closed. */
void tfpg_close(tfpg_session *session);

#ifdef __cplusplus
}
#endif

/* The name of a status: that of `tfpg_status` without `TFPG_`, and "?" for a number that is none. The library exports no pointer, so this
 * and the next one are C. */
static inline const char *tfpg_status_name(uint32_t status) {
    static const char *const names[] = {"DONE", "NOT_ACCEPTED", "OUT_OF_RANGE", "BAD_GRAPH", "TOO_MANY_HYPOTHESES", "?", "?",
                                        "TOO_MUCH_INPUT", "NO_MEMORY", "ROOM_TOO_SMALL", "ENDED", "NO_SUCH", "BAD_MAP",
                                        "FULL_GRAPH"};
    return status < sizeof names / sizeof *names ? names[status] : "?";
}

/* The name of a cause in `docs/formats.md`: of a graph with TFPG_BAD_GRAPH or TFPG_FULL_GRAPH, of a report with TFPG_NOT_ACCEPTED, and with
 * TFPG_DONE why a line is refused. "-" for 0, and "?" for what is none. */
static inline const char *tfpg_cause_name(uint32_t status, uint32_t cause) {
    static const char *const graph[] = {
        "-", "BadHeader", "BadLine", "BadName", "DuplicateName", "UnknownName", "BadNumber", "NumberTooLarge", "MinOverMax",
        "EdgeIntoFailure", "SelfEdge", "DuplicateEdge", "NoModes", "NoIncoming", "ZeroCycle", "TooManyNodes", "TooManyFailures",
        "TooManyEdges", "TooManyModes", "TooManyIncoming", "MissingEnd", "AfterEnd"};
    static const char *const report[] = {
        "-", "AfterClosed", "NotReusable", "NotAClause", "NotAFact", "NotOnPath", "Unchained", "NotNegative", "BadReport", "Surplus",
        "WrongRound", "WrongHypothesis", "WrongRanked", "NotATrace", "WrongOpen", "WrongRejected", "WrongStatus", "WrongCounts",
        "EndsEarly"};
    static const char *const refusal[] = {
        "-", "BadLine", "BadNumber", "TimeTooLarge", "TimeBack", "UnknownName", "NotMonitored", "NotAMode", "LogFull", "ModesFull",
        "TooLong"};
    if (status == TFPG_BAD_GRAPH || status == TFPG_FULL_GRAPH) return cause < sizeof graph / sizeof *graph ? graph[cause] : "?";
    if (status == TFPG_NOT_ACCEPTED) return cause < sizeof report / sizeof *report ? report[cause] : "?";
    if (status == TFPG_DONE) return cause < sizeof refusal / sizeof *refusal ? refusal[cause] : "?";
    return cause == 0 ? "-" : "?";
}

#endif
