// The least time of whole processes. It reads commands from standard input, a line each with words between single blanks, starts each
// of them in turn on one processor, with its output to the null device, and prints the least milliseconds and the last status of each.
//
//     gcc -O2 -o least bench/least.c && ./least ROUNDS RUNS < commands
//
// Each round runs each command RUNS times in a row, so that what else the machine does falls on all of them alike.
#define _GNU_SOURCE
#include <fcntl.h>
#include <sched.h>
#include <spawn.h>
#include <stdio.h>
#include <stdlib.h>
#include <string.h>
#include <sys/wait.h>
#include <time.h>

enum { MOST_COMMANDS = 2000, MOST_WORDS = 32, MOST_BYTES = 4096 };

typedef struct {
    char line[MOST_BYTES];
    char text[MOST_BYTES];
    char *words[MOST_WORDS + 1];
    double least;
    int status;
} Command;

extern char **environ;
static Command commands[MOST_COMMANDS];

static double milliseconds(void) {
    struct timespec now;
    clock_gettime(CLOCK_MONOTONIC, &now);
    return now.tv_sec * 1e3 + now.tv_nsec * 1e-6;
}

static int read_commands(void) {
    int count = 0;
    while (count < MOST_COMMANDS && fgets(commands[count].line, MOST_BYTES, stdin)) {
        Command *it = &commands[count++];
        it->line[strcspn(it->line, "\n")] = 0;
        strcpy(it->text, it->line);
        int words = 0;
        for (char *word = strtok(it->text, " "); word && words < MOST_WORDS; word = strtok(NULL, " ")) it->words[words++] = word;
        it->least = 1e9;
    }
    return count;
}

static void run(Command *it, const posix_spawn_file_actions_t *streams) {
    pid_t process;
    double start = milliseconds();
    if (posix_spawn(&process, it->words[0], streams, NULL, it->words, environ) != 0) {
        fprintf(stderr, "can't start: %s\n", it->line);
        exit(1);
    }
    waitpid(process, &it->status, 0);
    double taken = milliseconds() - start;
    if (taken < it->least) it->least = taken;
}

int main(int count, char **words) {
    if (count != 3) return 2;
    cpu_set_t last;
    sched_getaffinity(0, sizeof last, &last);
    for (int cpu = 0; CPU_COUNT(&last) > 1; cpu++) CPU_CLR(cpu, &last);
    sched_setaffinity(0, sizeof last, &last);
    posix_spawn_file_actions_t streams;
    posix_spawn_file_actions_init(&streams);
    posix_spawn_file_actions_addopen(&streams, 1, "/dev/null", O_WRONLY, 0);
    posix_spawn_file_actions_addopen(&streams, 2, "/dev/null", O_WRONLY, 0);
    int given = read_commands();
    for (int round = 0; round < atoi(words[1]); round++)
        for (int i = 0; i < given; i++)
            for (int again = 0; again < atoi(words[2]); again++) run(&commands[i], &streams);
    for (int i = 0; i < given; i++) printf("%.2f\t%d\t%s\n", commands[i].least, WEXITSTATUS(commands[i].status), commands[i].line);
}
