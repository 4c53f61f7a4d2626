/*
 * What the library does with buffers that a careful caller would not lend: an input or closed days inside the output or
 * changing during the call, null pointers of length 0. Whatever comes of it, no byte outside the lent output is written.
 *
 * The output ends where a page without access begins, so that a byte written past it ends the process. Before it stand
 * bytes that are compared afterwards. Each case runs in a process of its own.
 */
#define _DEFAULT_SOURCE
#include <signal.h>
#include <stdio.h>
#include <stdlib.h>
#include <string.h>
#include <sys/mman.h>
#include <sys/wait.h>
#include <unistd.h>

#include "breccianest.h"

enum {
    PAGE = 4096,
    /* bytes that may be read and written, between two pages that may not */
    SPACE = 64 * PAGE,
    /* bytes of the answer with number 40 and all else 0, and of the longest answer */
    ANSWER = 61,
    LONGEST = 117,
};

typedef size_t work(const uint8_t *, size_t, uint8_t *, size_t);

/* The closed days that the next two lend. */
static const uint16_t *closed;
static size_t closed_len;

static size_t bill_by_list(const uint8_t *input, size_t input_len, uint8_t *output, size_t output_len)
{
    return breccianest_bill_closed(input, input_len, closed, closed_len, output, output_len);
}

static size_t notice_by_list(const uint8_t *input, size_t input_len, uint8_t *output, size_t output_len)
{
    return breccianest_notice_closed(input, input_len, closed, closed_len, output, output_len);
}

static int bills(work *function)
{
    return function == breccianest_bill || function == bill_by_list;
}

static void must(int fact, const char *what)
{
    if (fact)
        return;
    fprintf(stderr, "%s\n", what);
    _exit(1);
}

static uint8_t *guarded(void)
{
    uint8_t *all = mmap(NULL, SPACE + 2 * PAGE, PROT_NONE, MAP_PRIVATE | MAP_ANONYMOUS, -1, 0);
    must(all != MAP_FAILED, "no memory");
    must(mprotect(all + PAGE, SPACE, PROT_READ | PROT_WRITE) == 0, "no access");
    return all + PAGE;
}

/* Works an input that lies in the guarded space, and compares what stands before the output. */
static size_t worked(work *function, uint8_t *space, const uint8_t *input, size_t input_len, size_t room)
{
    static uint8_t before[SPACE];
    uint8_t *output = space + SPACE - room;
    memcpy(before, space, SPACE - room);
    size_t size = function(input, input_len, output, room);
    must(memcmp(before, space, SPACE - room) == 0, "a byte before the output was written");
    return size;
}

/*
 * Lines end before the output, and the last line is the output's own place, which has no LF until the answers of the
 * first lines stand there. The answers of the lines measured fill the output exactly.
 */
static void long_line_in_the_output(work *function)
{
    enum { LINES = 200, ROOM = (LINES + 1) * ANSWER };
    uint8_t *space = guarded();
    uint8_t *output = space + SPACE - ROOM;
    memset(output - LINES, '\n', LINES);
    memset(output, '0', ROOM);
    size_t size = worked(function, space, output - LINES, LINES + ROOM, ROOM);
    must(!bills(function) || size == ROOM, "another size than the input has");
}

/* An input that begins before, in and at the output, of LFs, of digits, and of both. */
static void every_overlap(work *function)
{
    enum { ROOM = 3 * PAGE };
    static const char *const texts[] = {"\n", "0", "0\n", "0000000000000000000000000000\n"};
    uint8_t *space = guarded();
    uint8_t *output = space + SPACE - ROOM;
    for (size_t text = 0; text < sizeof texts / sizeof *texts; text++) {
        size_t period = strlen(texts[text]);
        for (int shift = -2 * PAGE; shift < ROOM; shift += 61) {
            uint8_t *input = output + shift;
            size_t length = (size_t)(space + SPACE - input);
            for (size_t i = 0; i < length; i++)
                input[i] = (uint8_t)texts[text][i % period];
            worked(function, space, input, length, ROOM);
        }
    }
}

/*
 * A pass over an input of two pages is seen where it comes to the second one, which can't be read until then; the first
 * one can't be read again before the next pass. In the pass that is named, `change` is run.
 */
static uint8_t *first_page;
static int passes_left;
static void (*change)(void);

static void set_access(uint8_t *page, int access)
{
    if (mprotect(page, PAGE, access) != 0)
        _exit(2);
}

static void on_fault(int number, siginfo_t *info, void *context)
{
    (void)number;
    (void)context;
    uint8_t *place = info->si_addr;
    uint8_t *second_page = first_page + PAGE;
    if (place < first_page || place >= second_page + PAGE) {
        static const char said[] = "a byte outside the output was written\n";
        _exit(write(STDERR_FILENO, said, sizeof said - 1) < 0 ? 2 : 1);
    }
    int second = place >= second_page;
    passes_left -= second;
    set_access(first_page, second && passes_left > 0 ? PROT_NONE : PROT_READ | PROT_WRITE);
    set_access(second_page, second ? PROT_READ | PROT_WRITE : PROT_NONE);
    if (second && passes_left == 0)
        change();
}

/* Works the two pages at the start of a guarded space; in the pass named something changes. */
static size_t worked_changing(work *function, uint8_t *space, int pass, void (*then)(void), size_t room)
{
    first_page = space;
    passes_left = pass;
    change = then;
    set_access(space + PAGE, PROT_NONE);
    uint8_t *output = space + SPACE - room;
    memset(output, 0xaa, room);
    return function(space, 2 * PAGE, output, room);
}

static void more_lines(void)
{
    memset(first_page, '\n', PAGE);
}

/* Two pages of digits, the first of which becomes LFs in the pass named. */
static size_t worked_with_more_lines(work *function, int pass, size_t room)
{
    uint8_t *space = guarded();
    memset(space, '0', 2 * PAGE);
    return worked_changing(function, space, pass, more_lines, room);
}

/* One line when its end is counted, in room for the longest answer, and 4,097 when it is worked. */
static void changed_when_counted(work *function)
{
    worked_with_more_lines(function, 1, LONGEST);
    must(passes_left == 0, "the input did not change");
}

/* One line when it is measured, and 4,097 when it is written. */
static void changed_when_measured(work *function)
{
    size_t size = worked_with_more_lines(function, 2, ANSWER);
    must(!bills(function) || passes_left == 0, "the input did not change");
    must(!bills(function) || size == ANSWER, "another size than the input had when it was measured");
}

/* Fills two pages with a household's lines, which nobody pays: an opening, then a reading every 30 days. */
static size_t fill_with_readings(uint8_t *pages)
{
    static const char opening[] = "0100000000006404\n";
    enum { READING = 31 };
    size_t lines = 1;
    size_t at = sizeof opening - 1;
    memcpy(pages, opening, at);
    for (; at + READING <= 2 * PAGE; at += READING, lines++) {
        char line[READING + 1];
        snprintf(line, sizeof line, "02%04x%08x000144ba000124f8\n", (unsigned)(30 * lines), (unsigned)(100 + 20 * lines));
        memcpy(pages + at, line, READING);
    }
    memset(pages + at, '0', 2 * PAGE - at);
    return lines + (at < 2 * PAGE);
}

/* Closed days that change: how they stand first, and what they become. */
static uint16_t days[BRECCIANEST_MOST_CLOSED];

static void list_rises(void)
{
    for (size_t i = 0; i < BRECCIANEST_MOST_CLOSED; i++)
        days[i] = (uint16_t)(60 + i);
}

static void list_falls(void)
{
    for (size_t i = 0; i < BRECCIANEST_MOST_CLOSED; i++)
        days[i] = (uint16_t)(UINT16_MAX - i);
}

/* Works readings by a list that changes when they are measured, in room for as many answers of the shortest kind. */
static void worked_by_changing_list(work *function, void (*before)(void), void (*after)(void))
{
    uint8_t *space = guarded();
    size_t lines = fill_with_readings(space);
    before();
    closed = days;
    closed_len = BRECCIANEST_MOST_CLOSED;
    worked_changing(function, space, 2, after, lines * ANSWER);
    must(!bills(function) || passes_left == 0, "the list did not change");
}

/* Every answer is short when it is measured, and some are longer when they are written. */
static void list_mended_when_measured(work *function)
{
    worked_by_changing_list(function, list_falls, list_rises);
}

/* Due days are looked for in a list that broke after it was looked at. */
static void list_broken_when_measured(work *function)
{
    worked_by_changing_list(function, list_rises, list_falls);
}

/* The closed days lie in the output, and answers are written over them. */
static void list_in_the_output(work *function)
{
    enum { ROOM = 2 * PAGE };
    uint8_t *space = guarded();
    uint8_t *output = space + SPACE - ROOM;
    fill_with_readings(space);
    list_rises();
    for (size_t shift = 0; shift + sizeof days <= ROOM; shift += 61 * 2) {
        memcpy(output + shift, days, sizeof days);
        closed = (const uint16_t *)(output + shift);
        closed_len = BRECCIANEST_MOST_CLOSED;
        worked(function, space, space, 2 * PAGE, ROOM);
    }
}

static void null_pointers(work *function)
{
    uint8_t line[] = "\n";
    uint8_t output[ANSWER];
    memset(output, 0xaa, sizeof output);
    must(function(NULL, 0, NULL, 0) == 0, "no input has no output");
    must(function(NULL, 0, output, sizeof output) == 0, "no input has no output, whatever the room");
    must(output[0] == 0xaa && memcmp(output, output + 1, sizeof output - 1) == 0, "no output was written");
    must(function(line, 1, NULL, 0) == (bills(function) ? ANSWER : 0), "a size without room");
}

typedef void test(work *);

static int passes(const char *name, test *run, work *function, const char *of)
{
    fflush(NULL);
    pid_t child = fork();
    if (child == 0) {
        struct sigaction action = {.sa_sigaction = on_fault, .sa_flags = SA_SIGINFO};
        sigaction(SIGSEGV, &action, NULL);
        run(function);
        _exit(0);
    }
    int status = 1;
    if (child < 0 || waitpid(child, &status, 0) != child || status != 0) {
        printf("FAILED %s (%s)\n", name, of);
        return 0;
    }
    return 1;
}

int main(void)
{
    static const struct {
        const char *name;
        work *function;
        int takes_list;
    } functions[] = {
        {"bill", breccianest_bill, 0},
        {"notice", breccianest_notice, 0},
        {"bill by a list", bill_by_list, 1},
        {"notice by a list", notice_by_list, 1},
    };
    static const struct {
        const char *name;
        test *run;
        int lends_list;
    } tests[] = {
        {"a long line in the output", long_line_in_the_output, 0},
        {"every overlap", every_overlap, 0},
        {"an input changed when its lines are counted", changed_when_counted, 0},
        {"an input changed when it is measured", changed_when_measured, 0},
        {"null pointers of length 0", null_pointers, 0},
        {"closed days mended when the input is measured", list_mended_when_measured, 1},
        {"closed days broken when the input is measured", list_broken_when_measured, 1},
        {"closed days in the output", list_in_the_output, 1},
    };
    int passed = 0;
    int failed = 0;
    for (size_t i = 0; i < sizeof tests / sizeof *tests; i++) {
        for (size_t j = 0; j < sizeof functions / sizeof *functions; j++) {
            if (tests[i].lends_list && !functions[j].takes_list)
                continue;
            passes(tests[i].name, tests[i].run, functions[j].function, functions[j].name) ? passed++ : failed++;
        }
    }
    printf("tests: %d passed, %d failed\n", passed, failed);
    return failed != 0;
}
