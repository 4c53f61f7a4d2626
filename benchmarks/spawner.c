/*
 * Runs a program once for each of a run of files, one after another, and
 * prints the seconds that took. Standard input is the file, standard output
 * goes nowhere.
 *
 *     spawner PROGRAM FOLDER FIRST COUNT      files FOLDER/0000000.txt and so on
 *     spawner PROGRAM - 0 COUNT               no input
 */
#define _POSIX_C_SOURCE 200809L
#include <fcntl.h>
#include <spawn.h>
#include <stdio.h>
#include <stdlib.h>
#include <string.h>
#include <sys/wait.h>
#include <time.h>

extern char **environ;

static void fail(const char *what)
{
    perror(what);
    exit(1);
}

static double seconds(void)
{
    struct timespec now;
    clock_gettime(CLOCK_MONOTONIC, &now);
    return (double)now.tv_sec + (double)now.tv_nsec / 1e9;
}

/* Runs the program on one file and waits for its end. */
static void run(char *program, const char *file)
{
    posix_spawn_file_actions_t actions;
    char *words[] = {program, NULL};
    pid_t child;
    int status;
    posix_spawn_file_actions_init(&actions);
    posix_spawn_file_actions_addopen(&actions, 0, file, O_RDONLY, 0);
    posix_spawn_file_actions_addopen(&actions, 1, "/dev/null", O_WRONLY, 0);
    if (posix_spawn(&child, program, &actions, NULL, words, environ) != 0)
        fail(program);
    posix_spawn_file_actions_destroy(&actions);
    if (waitpid(child, &status, 0) != child || status != 0)
        fail(file);
}

int main(int count, char **words)
{
    char file[4096] = "/dev/null";
    if (count != 5) {
        fprintf(stderr, "usage: spawner PROGRAM FOLDER FIRST COUNT\n");
        return 2;
    }
    long first = atol(words[3]);
    long files = atol(words[4]);
    int empty = strcmp(words[2], "-") == 0;
    double start = seconds();
    for (long index = first; index < first + files; index++) {
        if (!empty)
            snprintf(file, sizeof file, "%s/%07ld.txt", words[2], index);
        run(words[1], file);
    }
    printf("%.6f\n", seconds() - start);
    return 0;
}
