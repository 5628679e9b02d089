#include "threads.h"
#include <dlfcn.h>
#include <pthread.h>
#include <stdio.h>

enum { RUNS = 40 };

typedef struct {
    plugin_call *run;
    lending lent, copy;
    transcript book;
    uint32_t seed;
    int number;
} worker;

static pthread_barrier_t both;

static void *work(void *given)
{
    worker *w = given;
    pthread_barrier_wait(&both);
    for (uint32_t k = 0; k < RUNS && w->number == 0; k++)
        w->number = w->run(&w->lent.s, 1, w->seed + 977 * k, &w->book);
    return NULL;
}

static int ready(worker *w, const char *file, uint32_t seed, findings *f)
{
    void *handle = dlopen(file, RTLD_NOW | RTLD_GLOBAL);
    w->run = handle ? (plugin_call *)dlsym(handle, "plugin_run") : NULL;
    w->seed = seed;
    w->number = 0;
    if (w->run && !lend(&w->lent) && !lend(&w->copy) && !open_book(&w->book))
        return 0;
    snprintf(f->said, sizeof f->said, "%s is not ready", file);
    return -1;
}

static int as_alone(worker *w, findings *f)
{
    if (w->number != 0) {
        snprintf(f->said, sizeof f->said, "a thread ended with %d", w->number);
        return -1;
    }
    return agrees(&w->copy, &w->book, 0, 1, f) || ends_well(&w->lent, &w->copy, &w->book, f) ? -1 : 0;
}

int run_threads(const char *const files[2], uint32_t seed, findings *f)
{
    static worker workers[2];
    pthread_t threads[2];
    for (int k = 0; k < 2; k++)
        if (ready(&workers[k], files[k], seed + (uint32_t)k, f))
            return -1;
    pthread_barrier_init(&both, NULL, 2);
    for (int k = 0; k < 2; k++)
        if (pthread_create(&threads[k], NULL, work, &workers[k]))
            return -1;
    for (int k = 0; k < 2; k++)
        pthread_join(threads[k], NULL);
    return as_alone(&workers[0], f) || as_alone(&workers[1], f) ? -1 : 0;
}
