/*
 * Bills a file, or standard input if none is named: prints what `bill` writes,
 * then what `notice` writes. Words behind the file's name are closed days.
 */
#include <stdio.h>
#include <stdlib.h>

#include "breccianest.h"

struct buffer {
    uint8_t *bytes;
    size_t room;
};

struct closed {
    uint16_t days[BRECCIANEST_MOST_CLOSED];
    size_t count;
};

typedef size_t work(const uint8_t *, size_t, const uint16_t *, size_t, uint8_t *, size_t);

static void fail(const char *what)
{
    fprintf(stderr, "example: %s\n", what);
    exit(1);
}

static void grow(struct buffer *buffer, size_t room)
{
    uint8_t *bytes = realloc(buffer->bytes, room);
    if (bytes == NULL)
        fail("no memory");
    buffer->bytes = bytes;
    buffer->room = room;
}

/* Reads all of a file and gives its size. */
static size_t read_all(FILE *file, struct buffer *input)
{
    size_t size = 0;
    for (;;) {
        if (size == input->room)
            grow(input, 2 * input->room);
        size_t got = fread(input->bytes + size, 1, input->room - size, file);
        if (got == 0)
            break;
        size += got;
    }
    if (ferror(file))
        fail("the input can't be read");
    return size;
}

/* Adds a day; whether the list is within its bounds is the library's to say. */
static void close_day(struct closed *closed, const char *word)
{
    char *end;
    unsigned long day = strtoul(word, &end, 10);
    if (*word < '0' || *word > '9' || *end != '\0' || day > UINT16_MAX)
        fail("no day");
    if (closed->count == BRECCIANEST_MOST_CLOSED)
        fail("too many closed days");
    closed->days[closed->count++] = (uint16_t)day;
}

/* Prints the output of one function; the size it answers tells the room it needs. */
static void print_output(work *function, const struct buffer *input, size_t size, const struct closed *closed,
                         struct buffer *output)
{
    size_t whole = function(input->bytes, size, closed->days, closed->count, output->bytes, output->room);
    if (whole == SIZE_MAX)
        fail("the input is too long");
    if (whole > output->room) {
        grow(output, whole);
        whole = function(input->bytes, size, closed->days, closed->count, output->bytes, output->room);
    }
    if (fwrite(output->bytes, 1, whole, stdout) != whole)
        fail("the output can't be written");
}

int main(int count, char **words)
{
    FILE *file = count > 1 ? fopen(words[1], "rb") : stdin;
    if (file == NULL)
        fail("the file can't be opened");
    struct buffer input = {NULL, 0};
    struct buffer output = {NULL, 0};
    struct closed closed = {.count = 0};
    for (int i = 2; i < count; i++)
        close_day(&closed, words[i]);
    grow(&input, 65536);
    grow(&output, 128);
    size_t size = read_all(file, &input);
    print_output(breccianest_bill_closed, &input, size, &closed, &output);
    print_output(breccianest_notice_closed, &input, size, &closed, &output);
    if (fflush(stdout) != 0)
        fail("the output can't be written");
    free(input.bytes);
    free(output.bytes);
    return 0;
}
