/* example RECORD TABLE [A|B]: judges the record of a file by the operation table of a file, of both ends or of that end
 * alone. It prints what tcapjudge judge prints, and ends as it does.
 * example --test TRACE [BOOK]: judges each dialogue of the trace of a file, by the book of a file or by the one that the library
 * carries. It prints the lines that tcapjudge test writes as JSON, without that of the run, and ends as it does.
 * Where a file can't be read as a whole, it says so on standard error, judges nothing and ends with the status 3; 4 where the
 * words are wrong. */
#include <stdio.h>
#include <stdlib.h>
#include <string.h>
#include "tcapjudge.h"

static void stop(const char *what) {
    perror(what);
    exit(TCAPJUDGE_STATUS_ERROR);
}

static uint8_t *octets_of(const char *path, size_t *len) {
    FILE *file = fopen(path, "rb");
    uint8_t *octets = NULL;
    size_t room = 1 << 15;
    if (!file)
        stop(path);
    *len = 0;
    do {
        octets = realloc(octets, room *= 2);
        if (!octets)
            stop(path);
        *len += fread(octets + *len, 1, room - *len, file);
    } while (*len == room);
    if (ferror(file))
        stop(path);
    fclose(file);
    return octets;
}

static int judge(const char *record, const char *table, uint8_t end) {
    struct tcapjudge_answer said;
    size_t record_len, table_len;
    uint8_t *first = octets_of(record, &record_len), *second = octets_of(table, &table_len);
    uint8_t status = tcapjudge_judge(first, record_len, second, table_len, end, &said);
    unsigned long long entry = said.entry, unheard = said.unheard;
    free(first);
    free(second);
    if (said.verdict == TCAPJUDGE_LAWFUL)
        printf(end ? "LAWFUL %llu unheard %llu\n" : "LAWFUL %llu\n", entry, unheard);
    else if (said.verdict == TCAPJUDGE_REFUTED)
        printf("REFUTED %llu F%u\n", entry, said.reason);
    else if (said.verdict == TCAPJUDGE_UNDECIDED)
        printf(said.inner ? "UNDECIDED %llu %u/%u\n" : "UNDECIDED %llu %u\n", entry, said.reason, said.inner);
    else if (said.verdict == TCAPJUDGE_FAULT)
        printf("FAULT %u %llu\n", said.reason, entry);
    return status;
}

static int test(const char *trace, const char *book) {
    struct tcapjudge_asked asked = TCAPJUDGE_ASKED;
    size_t trace_len, book_len = 0, room = 1 << 16, len;
    uint8_t *first = octets_of(trace, &trace_len), *second = book ? octets_of(book, &book_len) : NULL;
    uint8_t status, *lines = NULL;
    for (;; room = len) {
        lines = realloc(lines, room);
        if (!lines)
            stop("the lines");
        status = tcapjudge_test(first, trace_len, second ? second : first, book_len, &asked, lines, room, &len);
        if (len <= room)
            break;
    }
    fwrite(lines, 1, len, stdout);
    free(lines);
    free(first);
    free(second);
    return status;
}

int main(int count, char **words) {
    int status = TCAPJUDGE_STATUS_WRONG_CALL;
    if (count > 2 && strcmp(words[1], "--test") == 0)
        status = test(words[2], count > 3 ? words[3] : NULL);
    else if (count > 2)
        status = judge(words[1], words[2], count > 3 ? (uint8_t)words[3][0] : 0);
    if (status == TCAPJUDGE_STATUS_WRONG_CALL)
        fputs("example RECORD TABLE [A|B]\nexample --test TRACE [BOOK]\n", stderr);
    return status;
}
