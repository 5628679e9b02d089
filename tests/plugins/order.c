#include "order.h"
#include <dlfcn.h>
#include <stdio.h>

typedef struct {
    const order *o;
    findings *f;
    lending lent, copy;
    transcript book;
    void *handles[2];
    uint32_t runs;
} session;

// The party of a plug-in: the first has 1, the second 2.
static uint8_t party_of(int which)
{
    return (uint8_t)(1 + which);
}

static int open_plugin(session *s, int which)
{
    s->handles[which] = dlopen(s->o->files[which], s->o->flags[which]);
    if (!s->handles[which]) {
        snprintf(s->f->said, sizeof s->f->said, "%s", dlerror());
        return -1;
    }
    return 0;
}

// The most calls that went to functions under our names, in the program or in one plug-in.
static void count_harm(session *s)
{
    harm_count *counters[3] = { s->o->program_harm };
    for (int which = 0; which < 2; which++)
        if (s->handles[which])
            counters[1 + which] = (harm_count *)dlsym(s->handles[which], "harm_done");
    for (int k = 0; k < 3; k++)
        if (counters[k] && counters[k]() > s->f->harm)
            s->f->harm = counters[k]();
}

static int close_plugin(session *s, int which)
{
    dlclose(s->handles[which]);
    s->handles[which] = NULL;
    if (dlopen(s->o->files[which], RTLD_LAZY | RTLD_NOLOAD)) {
        snprintf(s->f->said, sizeof s->f->said, "%s stays loaded when closed", s->o->files[which]);
        return -1;
    }
    return same_bytes(&s->lent, &s->copy, s->f);
}

static int run_plugin(session *s, int which)
{
    size_t from = s->book.frames;
    plugin_call *run = (plugin_call *)dlsym(s->handles[which], "plugin_run");
    int number = run(&s->lent.s, party_of(which), s->o->seed + 977 * s->runs++, &s->book);
    count_harm(s);
    if (agrees(&s->copy, &s->book, from, party_of(which), s->f))
        return -1;
    if (number != 0) {
        snprintf(s->f->said, sizeof s->f->said, "%s ended with %d", s->o->files[which], number);
        return -1;
    }
    return 0;
}

// Each party's slot 0 to the other's slot 7, so that versions of one share nodes with versions of the other.
static int hand_over(session *s)
{
    size_t from = s->book.frames;
    for (int which = 0; which < 2; which++) {
        note(&s->book, party_of(1 - which), JUMPERLOFT1_RELEASE, 7, 0, 0, 0);
        note(&s->book, 0, JUMPERLOFT1_HAND_OVER, 0, 7, party_of(which), party_of(1 - which));
    }
    if (serve_noted(&s->lent, &s->book, from)) {
        snprintf(s->f->said, sizeof s->f->said, "the host's own batch is refused");
        return -1;
    }
    return agrees(&s->copy, &s->book, from, ANY_PARTY, s->f);
}

static int take_step(session *s, char what)
{
    switch (what) {
    case 'A': case 'B': return open_plugin(s, what - 'A');
    case 'a': case 'b': return run_plugin(s, what - 'a');
    case '1': case '2': return close_plugin(s, what - '1');
    case 'h': return hand_over(s);
    default: return 0;
    }
}

int run_order(const order *o, findings *f)
{
    session s = { .o = o, .f = f };
    if (lend(&s.lent) || lend(&s.copy) || open_book(&s.book)) {
        snprintf(f->said, sizeof f->said, "no state to lend");
        return -1;
    }
    for (const char *at = o->schedule; *at; at++)
        if (take_step(&s, *at))
            return -1;
    return ends_well(&s.lent, &s.copy, &s.book, f);
}
