/* What the words judge, check and blame of tcapjudge say of octets that are in memory, as numbers; and what its word test says of
 * them, as lines of JSON (docs/LIBRARY.md).
 *
 * record: the octets of a record, its entries one behind the other: the octet 'A' or 'B', which says the end that sent it, and the
 * octets of the message; or the octet 'Q' alone, a quiet mark. table: the text of an operation table. certificate: the text of a
 * certificate (docs/FORMAT.md). Each is a pointer and a length in octets, at most PTRDIFF_MAX. No pointer may be null: where the
 * length is 0, give any other pointer, as "".
 * end: 0 for both ends, or 'A' or 'B' for that end alone, whatever its peer sent (the flag --end).
 * answer, answers: where the answer is put. It may not overlap what the other pointers point to; nor may lines and len of
 * tcapjudge_test.
 *
 * What is given may not change while a call runs. Nothing is kept between calls, and calls may run at the same time. A call
 * takes memory from malloc and realloc, which have to be those of one allocator with free and to align blocks as C asks, and
 * gives all of it back before it returns. It may not be made from a signal handler, nor in the forked child of a process with
 * threads. */
#ifndef TCAPJUDGE_H
#define TCAPJUDGE_H

#include <stddef.h>
#include <stdint.h>

#ifdef __cplusplus
extern "C" {
#endif

/* What is said (docs/VERDICTS.md). */
enum {
    TCAPJUDGE_LAWFUL = 0,
    TCAPJUDGE_REFUTED = 1,
    TCAPJUDGE_UNDECIDED = 2, /* only judge and blame */
    TCAPJUDGE_FAULT = 3,
    TCAPJUDGE_NOT_SHOWN = 4,  /* only check */
    TCAPJUDGE_BLAMED = 5,     /* only of an end, by blame */
    TCAPJUDGE_NOT_BLAMED = 6, /* only of an end, by blame */
    TCAPJUDGE_NOTHING = 7     /* nothing is said: of an end where the record or the table has a fault or memory ran out; or of
                               * a wrong call */
};

/* What a call returns: the exit status of tcapjudge. */
enum {
    TCAPJUDGE_STATUS_LAWFUL = 0,    /* by blame: both ends are, or the record is and no end is blamed */
    TCAPJUDGE_STATUS_REFUTED = 1,   /* by judge: refuted; by blame: an end is blamed */
    TCAPJUDGE_STATUS_UNDECIDED = 2, /* undecided, not shown; by blame also refuted, where nobody is blamed */
    TCAPJUDGE_STATUS_FAULT = 3,     /* of the table, the certificate or the record; or memory ran out */
    TCAPJUDGE_STATUS_WRONG_CALL = 4 /* end is none of 0, 'A' and 'B'; by test: a number in asked is unknown */
};

struct tcapjudge_answer {
    uint64_t entry;   /* LAWFUL: how many entries; NOT_BLAMED: how many before the first that is no message, or all;
                       * FAULT: the place; else the entry's number, counted from 0 */
    uint64_t unheard; /* LAWFUL of one end: how many messages of its peer are taken as unheard; else 0 */
    uint8_t verdict;  /* one of the first list */
    uint8_t reason;   /* REFUTED, BLAMED: the kind, 1 to 15; UNDECIDED, NOT_SHOWN, FAULT: the reason, 99 for memory; else 0 */
    uint8_t inner;    /* the number behind the slash of a reason, as 40 in 65/40; 0 where there is none */
};

struct tcapjudge_answers {
    struct tcapjudge_answer both; /* of the record */
    struct tcapjudge_answer a, b; /* of each end */
};

/* tcapjudge judge [--end END] */
uint8_t tcapjudge_judge(const uint8_t *record, size_t record_len, const uint8_t *table, size_t table_len, uint8_t end,
                        struct tcapjudge_answer *answer);

/* tcapjudge check [--end END] */
uint8_t tcapjudge_check(const uint8_t *record, size_t record_len, const uint8_t *table, size_t table_len,
                        const uint8_t *certificate, size_t certificate_len, uint8_t end, struct tcapjudge_answer *answer);

/* tcapjudge blame */
uint8_t tcapjudge_blame(const uint8_t *record, size_t record_len, const uint8_t *table, size_t table_len,
                        struct tcapjudge_answers *answers);

/* What tcapjudge_test returns beside a wrong call: the worst verdict on a dialogue, or on the trace (docs/TRACES.md). */
enum {
    TCAPJUDGE_STATUS_PASS = 0,
    TCAPJUDGE_STATUS_FAIL = 1,
    TCAPJUDGE_STATUS_INCONC = 2,
    TCAPJUDGE_STATUS_ERROR = 3 /* of the trace or the book; or memory ran out */
};

/* What becomes of the IDs of a dialogue that is over (--ids). */
enum {
    TCAPJUDGE_IDS_AGAIN = 0,   /* they come again */
    TCAPJUDGE_IDS_SETTLED = 1, /* they do, and nothing was under way then */
    TCAPJUDGE_IDS_ONCE = 2     /* each ID is used once between two quiet marks */
};

/* What is asked of a trace. */
struct tcapjudge_asked {
    uint64_t linger;  /* a dialogue that is over is judged when so many entries have gone by since (--linger) */
    uint8_t of;       /* 0: the verdicts on both ends; 'A' or 'B': on that end alone, whatever its peer does (--of) */
    uint8_t ids;      /* one of TCAPJUDGE_IDS_.. (--ids) */
    uint8_t complete; /* 1: the trace holds whole dialogues, so one that is open at its end is inconclusive (--complete); else 0 */
};

/* What tcapjudge test asks without flags: struct tcapjudge_asked asked = TCAPJUDGE_ASKED; */
#define TCAPJUDGE_ASKED {10000, 0, TCAPJUDGE_IDS_AGAIN, 0}

/* tcapjudge test --json LINES --table BOOK TRACE, of one trace, without the line of the run
 *
 * trace: the text of lines of digits, or the octets of a record: the first octets tell which (docs/TRACES.md). book: the text of an
 * operation table, or of a book of them; where book_len is 0 it is the book that the library carries, which has MAP and CAP.
 * lines: where the lines of JSON are put, one for each dialogue and behind them one for the trace (docs/report.schema.json), of
 * which "trace" is the name. They are text of UTF-8, each ends in a line feed, and no zero stands behind them. room: at most so many
 * octets of them are put; what is behind these stays. *len: so many octets they all are; where that is more than room, call again
 * with so much room. Beside what it judges, a call holds all lines in memory.
 * Where the book has a fault or memory ran out, there is one line, the trace's, whose "text" says so: nothing else is said then. */
uint8_t tcapjudge_test(const uint8_t *trace, size_t trace_len, const uint8_t *book, size_t book_len,
                       const struct tcapjudge_asked *asked, uint8_t *lines, size_t room, size_t *len);

#ifdef __cplusplus
}
#endif

#endif
