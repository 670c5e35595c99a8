/*
 * Whole runs of ratejob beside runs of bench/ratejob.c: start, reading, tests, lookup and printing.
 *     processes NAME JOB OUTPUT DIRECTORY LIBRARY PLAIN SKIPPING NATIVE
 * NAME is the thing's. JOB is read by each run and OUTPUT is written; rows go to the directory. Then come the programs.
 */
#define _POSIX_C_SOURCE 200809L
#include "thing.h"

#include <fcntl.h>
#include <spawn.h>
#include <stdlib.h>
#include <sys/wait.h>

enum { NAME = 1, JOB, OUTPUT, DIRECTORY, PROGRAMS, COUNT = PROGRAMS + 4, ROUNDS = 21 };

static char **names;

/* Runs a program once, and waits for it. */
static void run(const void *with)
{
    posix_spawn_file_actions_t files;
    char *program = names[*(const int *)with], *arguments[] = {program, NULL}, *environment[] = {NULL};
    pid_t child;
    int status;
    if (posix_spawn_file_actions_init(&files) != 0 || posix_spawn_file_actions_addopen(&files, 0, names[JOB], O_RDONLY, 0) != 0 ||
        posix_spawn_file_actions_addopen(&files, 1, names[OUTPUT], O_WRONLY | O_CREAT | O_TRUNC, 0644) != 0 ||
        posix_spawn(&child, program, &files, NULL, arguments, environment) != 0 || waitpid(child, &status, 0) != child ||
        status != 0) {
        fprintf(stderr, "%s doesn't run\n", program);
        exit(1);
    }
    posix_spawn_file_actions_destroy(&files);
}

static const int places[] = {PROGRAMS, PROGRAMS + 1, PROGRAMS + 2, PROGRAMS + 3};
static const struct variant variants[] = {
    {LIBRARY, run, places}, {PLAIN, run, places + 1}, {SKIPPING, run, places + 2}, {NATIVE, run, places + 3}};

int main(int count, char **arguments)
{
    if (count != COUNT)
        return 1;
    names = arguments;
    struct thing thing = {names[NAME], variants, sizeof variants / sizeof variants[0], ROUNDS};
    measure(&thing, names[DIRECTORY]);
    return 0;
}
