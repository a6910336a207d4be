/* spawn INPUT PROGRAM..: runs each program on INPUT, in turns, and prints its best time from start to end. */
#define _GNU_SOURCE
#include <fcntl.h>
#include <spawn.h>
#include <stdio.h>
#include <string.h>
#include <sys/wait.h>
#include <time.h>

enum { ROUNDS = 301, MOST = 16 };

extern char **environ;

static double now(void)
{
    struct timespec time;
    clock_gettime(CLOCK_MONOTONIC, &time);
    return 1e6 * (double)time.tv_sec + (double)time.tv_nsec / 1e3;
}

/* Microseconds, or -1 where it fails. */
static double run(char *program, const char *input)
{
    char *words[] = {program, NULL};
    posix_spawn_file_actions_t actions;
    double began = now();
    pid_t child;
    int status = -1;
    posix_spawn_file_actions_init(&actions);
    posix_spawn_file_actions_addopen(&actions, 0, input, O_RDONLY, 0);
    posix_spawn_file_actions_addopen(&actions, 1, "/dev/null", O_WRONLY, 0);
    if (posix_spawnp(&child, words[0], &actions, NULL, words, environ) != 0 || waitpid(child, &status, 0) != child)
        status = -1;
    posix_spawn_file_actions_destroy(&actions);
    return status == 0 ? now() - began : -1;
}

int main(int argc, char **argv)
{
    char **programs = argv + 2;
    int count = argc - 2, i, round;
    double best[MOST];
    if (count < 1 || count > MOST) {
        fprintf(stderr, "usage: spawn INPUT PROGRAM..\n");
        return 2;
    }
    for (i = 0; i < count; i++)
        best[i] = 1e18;
    for (round = 0; round < ROUNDS; round++)
        for (i = 0; i < count; i++) {
            double took = run(programs[i], argv[1]);
            if (took < 0) {
                fprintf(stderr, "spawn: %s fails\n", programs[i]);
                return 1;
            }
            best[i] = took < best[i] ? took : best[i];
        }
    printf("listing of %s:", strrchr(argv[1], '/') + 1);
    for (i = 0; i < count; i++)
        printf("%s %s %.0f us (ratio %.2f)", i ? "," : "", strrchr(programs[i], '/') + 1, best[i], best[0] / best[i]);
    printf("\n");
    return 0;
}
