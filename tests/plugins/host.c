// The host program: every ordered pair of plug-ins in every way of loading, each order in a process of its own.
#include "order.h"
#include "threads.h"
#include <dlfcn.h>
#include <stdio.h>
#include <stdlib.h>
#include <string.h>
#include <sys/mman.h>
#include <sys/wait.h>
#include <unistd.h>

enum { EVERY_OPERATION = 0x1FFFF, SECONDS_FOR_ONE = 20, THREAD_ROUNDS = 4, LOADINGS = 8 };

static const char *const schedules[] = {
    "AB abaha 2a Bb 1b A bhab 12",
    "AB babhb 1b Aa 2a B ahba 21",
    "A a B b 1b h A ab 2a B ba 12",
    "A a 1 B b A ah 2a 1 BA bab 21",
};

static const char *directory;
static findings *seen;
static size_t orders, wrong, frames;
static uint32_t operations;

static const char *file_of(const char *plugin, int again)
{
    char *path = NULL;
    if (asprintf(&path, "%s/%s%s.so", directory, plugin, again ? ".again" : "") < 0)
        exit(2);
    return path;
}

// Runs the order, or the two threads if there is no schedule, in a child; 0 if all agreed.
static int in_child(const order *o)
{
    memset(seen, 0, sizeof *seen);
    fflush(NULL);
    pid_t child = fork();
    if (child == 0) {
        alarm(SECONDS_FOR_ONE);
        _exit((o->schedule ? run_order(o, seen) : run_threads(o->files, o->seed, seen)) ? 1 : 0);
    }
    int status;
    if (child < 0 || waitpid(child, &status, 0) != child)
        exit(2);
    if (WIFSIGNALED(status))
        snprintf(seen->said, sizeof seen->said, "ended by signal %d", WTERMSIG(status));
    frames += seen->frames;
    operations |= seen->operations;
    return WIFEXITED(status) && WEXITSTATUS(status) == 0 && seen->harm == 0 ? 0 : -1;
}

static void try_order(const char *const names[2], const order *o)
{
    orders++;
    if (in_child(o) == 0)
        return;
    wrong++;
    printf("plugins: FAILED, program %s, %s.so (%s) and %s.so (%s), %s, \"%s\": %u calls taken by other code; %s\n",
        HOST_NAME, names[0], o->flags[0] & RTLD_GLOBAL ? "RTLD_GLOBAL" : "RTLD_LOCAL",
        names[1], o->flags[1] & RTLD_GLOBAL ? "RTLD_GLOBAL" : "RTLD_LOCAL",
        o->flags[0] & RTLD_NOW ? "RTLD_NOW" : "RTLD_LAZY", o->schedule, seen->harm, seen->said);
}

static void try_pair(const char *first, const char *second)
{
    const char *const names[2] = { first, second };
    order o = { .files = { file_of(first, 0), file_of(second, !strcmp(first, second)) } };
    o.program_harm = (harm_count *)dlsym(RTLD_DEFAULT, "harm_done");
    for (int loading = 0; loading < LOADINGS; loading++) {
        int binding = loading & 1 ? RTLD_LAZY : RTLD_NOW;
        o.flags[0] = binding | (loading & 2 ? RTLD_GLOBAL : RTLD_LOCAL);
        o.flags[1] = binding | (loading & 4 ? RTLD_GLOBAL : RTLD_LOCAL);
        for (size_t k = 0; k < sizeof schedules / sizeof *schedules; k++) {
            o.schedule = schedules[k];
            o.seed = (uint32_t)(7919 * orders + 1);
            try_order(names, &o);
        }
    }
}

static void try_threads(void)
{
    for (uint32_t round = 0; round < THREAD_ROUNDS; round++) {
        order o = { .files = { file_of(round % 2 ? "edition2" : "c_a", 0), file_of(round % 2 ? "c_a" : "edition2", 0) },
            .seed = 1000 * round + 1 };
        if (in_child(&o)) {
            wrong++;
            printf("plugins: FAILED, program %s, c_a.so and edition2.so in two threads: %s\n", HOST_NAME, seen->said);
        }
    }
}

int main(int count, char **given)
{
    if (count < 3)
        return 2;
    directory = given[1];
    seen = mmap(NULL, sizeof *seen, PROT_READ | PROT_WRITE, MAP_SHARED | MAP_ANONYMOUS, -1, 0);
    if (seen == MAP_FAILED)
        return 2;
    for (int a = 2; a < count; a++)
        for (int b = 2; b < count; b++)
            try_pair(given[a], given[b]);
    try_threads();
    if (operations != EVERY_OPERATION && wrong == 0) {
        wrong++;
        printf("plugins: FAILED, program %s: the operations done were %X\n", HOST_NAME, operations);
    }
    printf("counts %zu %zu %zu\n", orders, wrong, frames);
    return wrong != 0;
}
