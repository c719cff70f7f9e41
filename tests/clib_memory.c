/* Lets each allocation of calls of the library for C fail in turn, linked with --wrap for malloc, realloc and free. A call has to
 * say what it says without a failure, or the fault 99 and nothing of an end, or of a trace the one line of that; and to give back all
 * that it took. Prints how many calls did so, and how many did not. */
#include <stdio.h>
#include <stdlib.h>
#include <string.h>
#include "tcapjudge.h"

void *__real_malloc(size_t size);
void *__real_realloc(void *old, size_t size);
void __real_free(void *block);

static unsigned long asked, failing;
static long held;

void *__wrap_malloc(size_t size) {
    void *block = ++asked == failing ? NULL : __real_malloc(size);
    held += block != NULL;
    return block;
}

void *__wrap_realloc(void *old, size_t size) {
    void *block = ++asked == failing ? NULL : __real_realloc(old, size);
    held += block && !old;
    return block;
}

void __wrap_free(void *block) {
    held -= block != NULL;
    __real_free(block);
}

/* A Begin with an Invoke, and an End with its result, or an End to nothing. */
static const uint8_t lawful[] = {0x41, 0x62, 0x0d, 0x48, 0x01, 0x01, 0x6c, 0x08, 0xa1, 0x06, 0x02, 0x01, 0x01, 0x02, 0x01,
                                 0x2d, 0x42, 0x64, 0x0a, 0x49, 0x01, 0x01, 0x6c, 0x05, 0xa2, 0x03, 0x02, 0x01, 0x01};
static const uint8_t wrong[] = {0x41, 0x62, 0x0d, 0x48, 0x01, 0x01, 0x6c, 0x08, 0xa1, 0x06, 0x02,
                                0x01, 0x01, 0x02, 0x01, 0x2d, 0x42, 0x64, 0x03, 0x49, 0x01, 0x09};
static const uint8_t table[] = "{\"operations\":[{\"class\":1,\"code\":45}]}";
static const uint8_t certificate[] = "{\"close\":[],\"expire\":[],\"fates\":[1,2],\"version\":1}";

/* The first two as lines, behind a comment; a text that is no book; and what is said where memory ran out. */
static const uint8_t lines[] = "# one\nA 620D4801016C08A106020101 02012D\nB 640A4901016C05A203020101\n";
static const uint8_t no_book[] = "{\"tables\":[]}";
static const char no_memory_line[] =
    "{\"trace\":\"trace\",\"verdict\":\"error\",\"messages\":0,\"dialogues\":{\"pass\":0,\"inconc\":0,\"fail\":0,\"error\":0},"
    "\"unheard\":0,\"text\":\"out of memory\"}\n";

struct said {
    struct tcapjudge_answers answers;
    uint8_t lines[4096];
    size_t len;
};

static const struct tcapjudge_answer nothing = {0, 0, TCAPJUDGE_NOTHING, 0, 0};

/* The call of the word test of this number: of each trace by each book. */
static uint8_t test(int number, struct said *said) {
    static const struct tcapjudge_asked asked = TCAPJUDGE_ASKED;
    static const struct { const uint8_t *octets; size_t len; } traces[] = {
        {lawful, sizeof lawful}, {wrong, sizeof wrong}, {lines, sizeof lines - 1}}, books[] = {
        {table, sizeof table - 1}, {table, 0}, {no_book, sizeof no_book - 1}};
    int trace = number % 3, book = number / 3;
    return tcapjudge_test(traces[trace].octets, traces[trace].len, books[book].octets, books[book].len, &asked, said->lines,
                          sizeof said->lines, &said->len);
}

/* The call of this number: the first ten are of the other words. */
static uint8_t call(int number, struct said *said) {
    const uint8_t *record = number & 1 ? wrong : lawful;
    size_t record_len = number & 1 ? sizeof wrong : sizeof lawful, table_len = sizeof table - 1;
    uint8_t end = number & 2 ? 'A' : 0;
    memset(said, 0, sizeof *said);
    said->answers.both = said->answers.a = said->answers.b = nothing;
    if (number >= 10)
        return test(number - 10, said);
    if (number < 4)
        return tcapjudge_judge(record, record_len, table, table_len, end, &said->answers.both);
    if (number < 8)
        return tcapjudge_check(record, record_len, table, table_len, certificate, sizeof certificate - 1, end,
                               &said->answers.both);
    return tcapjudge_blame(record, record_len, table, table_len, &said->answers);
}

/* What has to be said where memory ran out in the call of this number. */
static void say_no_memory(int number, struct said *said) {
    memset(said, 0, sizeof *said);
    said->answers.both = said->answers.a = said->answers.b = nothing;
    if (number < 10) {
        said->answers.both.verdict = TCAPJUDGE_FAULT;
        said->answers.both.reason = 99;
    } else {
        said->len = sizeof no_memory_line - 1;
        memcpy(said->lines, no_memory_line, said->len);
    }
}

static int is(const struct tcapjudge_answer *one, const struct tcapjudge_answer *other) {
    return one->entry == other->entry && one->unheard == other->unheard && one->verdict == other->verdict &&
           one->reason == other->reason && one->inner == other->inner;
}

static int are(const struct said *one, const struct said *other) {
    return is(&one->answers.both, &other->answers.both) && is(&one->answers.a, &other->answers.a) &&
           is(&one->answers.b, &other->answers.b) && one->len == other->len &&
           memcmp(one->lines, other->lines, sizeof one->lines) == 0;
}

int main(void) {
    static struct said wanted, said, no_memory;
    unsigned long passed = 0, failed = 0;
    for (int number = 0; number < 19; number++) {
        failing = asked = 0;
        uint8_t status = call(number, &wanted);
        unsigned long count = asked;
        say_no_memory(number, &no_memory);
        for (failing = 1; failing <= count; failing++) {
            asked = held = 0;
            uint8_t found = call(number, &said);
            int is_as_ever = found == status && are(&said, &wanted);
            int is_well = held == 0 && (is_as_ever || (found == TCAPJUDGE_STATUS_FAULT && are(&said, &no_memory)));
            passed += is_well;
            failed += !is_well;
        }
    }
    printf("%lu passed, %lu failed\n", passed, failed);
    return failed != 0;
}
