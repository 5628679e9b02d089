/* stack TEXT..: the stack that the calls need, measured on a thread whose stack was painted, at the greatest height;
 * each text has to name the figure, as "N KiB of stack". Then the same calls on threads that have less, each in a child:
 * a fault at the guard page and never silence, and nothing below that page is written. */
#define _DEFAULT_SOURCE
#include <jumperloft.h>

#include <pthread.h>
#include <signal.h>
#include <stdio.h>
#include <stdlib.h>
#include <string.h>
#include <sys/mman.h>
#include <sys/resource.h>
#include <sys/wait.h>
#include <unistd.h>

enum { STACK = 2 * JUMPERLOFT1_STACK_SIZE, SMALLEST = 64 << 10, PAINT = 0xC7, PAGE = 4096, SECONDS = 20 };

typedef void *work(void *);

static jumperloft1_state state;
static uint8_t *stack; /* shared with the children */
static uintptr_t caller;

static void must(int ok, const char *what)
{
    if (!ok) {
        fprintf(stderr, "stack: FAILED, %s\n", what);
        exit(1);
    }
}

static uint8_t serve(uint8_t operation, uint8_t slot, uint8_t destination, uint32_t index)
{
    uint8_t frame[12], answer[6];
    jumperloft1_put_frame(frame, 1, operation, slot, destination, index, index);
    must(jumperloft1_run(&state, frame, 12, answer, 6).number == JUMPERLOFT1_DONE, "a batch did not run");
    return answer[0];
}

static void *form(void *unused)
{
    const uint8_t here = 0;
    caller = (uintptr_t)&here;
    must(jumperloft1_form_state(&state).number == JUMPERLOFT1_DONE, "not formed");
    return unused;
}

/* Each call that goes down a tree, with a walk that has both stacks; then all is as it was. */
static void *edits(void *unused)
{
    static const uint8_t all[][3] = {{JUMPERLOFT1_SET, 0, 2}, {JUMPERLOFT1_PUSH_BACK, 0, 3}, {JUMPERLOFT1_DROP_LAST, 0, 4},
        {JUMPERLOFT1_GET, 0, 0}, {JUMPERLOFT1_OPEN_WALK, 0, 0}, {JUMPERLOFT1_NEXT, 0, 0}, {JUMPERLOFT1_NEXT_BACK, 0, 0},
        {JUMPERLOFT1_COMPARE, 0, 2}, {JUMPERLOFT1_FIRST, 0, 0}, {JUMPERLOFT1_LAST, 0, 0}, {JUMPERLOFT1_CLOSE_WALK, 0, 0},
        {JUMPERLOFT1_RELEASE, 2, 0}, {JUMPERLOFT1_RELEASE, 3, 0}, {JUMPERLOFT1_RELEASE, 4, 0}};
    const uint8_t here = 0;
    caller = (uintptr_t)&here;
    for (size_t i = 0; i < sizeof all / sizeof all[0]; i++) {
        must(serve(all[i][0], all[i][1], all[i][2], 5) == JUMPERLOFT1_DONE, "a frame was refused");
    }
    return unused;
}

static void *no_frames(void *unused)
{
    const uint8_t here = 0;
    caller = (uintptr_t)&here;
    must(jumperloft1_run(&state, NULL, 0, NULL, 0).number == JUMPERLOFT1_DONE, "an empty batch did not run");
    return unused;
}

/* Runs it on a thread that has the last `size` bytes of the stack. */
static void on_thread(work *call, size_t size)
{
    pthread_attr_t attributes;
    pthread_t thread;
    must(pthread_attr_init(&attributes) == 0 && pthread_attr_setstack(&attributes, stack + STACK - size, size) == 0, "no stack");
    must(pthread_create(&thread, &attributes, call, NULL) == 0 && pthread_join(thread, NULL) == 0, "no thread");
}

static size_t painted(void)
{
    size_t untouched = 0;
    while (untouched < STACK && stack[untouched] == PAINT) {
        untouched++;
    }
    return untouched;
}

/* The bytes below the caller. */
static size_t stack_of(work *call)
{
    memset(stack, PAINT, STACK);
    on_thread(call, STACK);
    return caller - (uintptr_t)(stack + painted());
}

/* In a child, with a page that faults below the stack: says whether it ran to its end, and stops if it ended in silence. */
static int runs_on(work *call, size_t size)
{
    const size_t guard = STACK - size - PAGE;
    int status = 0;
    memset(stack, PAINT, STACK);
    fflush(NULL);
    const pid_t child = fork();
    if (child == 0) {
        const struct rlimit no_core = {0, 0};
        setrlimit(RLIMIT_CORE, &no_core);
        alarm(SECONDS);
        must(mprotect(stack + guard, PAGE, PROT_NONE) == 0, "no guard page");
        on_thread(call, size);
        _exit(0);
    }
    must(child > 0 && waitpid(child, &status, 0) == child, "no child");
    const int ran = WIFEXITED(status) && WEXITSTATUS(status) == 0;
    must(ran || (WIFSIGNALED(status) && (WTERMSIG(status) == SIGSEGV || WTERMSIG(status) == SIGBUS)), "neither run nor a fault");
    must(painted() >= guard + PAGE, "something below the guard page was written");
    return ran;
}

/* Every smaller stack by pages: a fault; and none from the first that suffices on. Returns how many were too small. */
static size_t smaller_stacks(work *call, size_t need)
{
    size_t faults = 0;
    for (size_t size = SMALLEST; size <= need + 4 * PAGE; size += PAGE) {
        const int ran = runs_on(call, size);
        must(!ran || size > need, "it ran on a stack below its need");
        must(ran || size < need + 3 * PAGE, "it faulted on a stack above its need");
        faults += (size_t)!ran;
    }
    return faults;
}

static void set_up(size_t nodes)
{
    free(state.cells); /* the block's start */
    must(jumperloft1_lay_out(malloc(jumperloft1_bytes_for(nodes)), nodes, &state), "no memory");
}

/* A list of 32,767 elements of bits 1, whose height is 14; party 1 has it in slot 0. */
static void grow(void)
{
    enum { PAIRS = 128 };
    static uint8_t frames[24 * PAIRS], answers[12 * PAIRS];
    must(serve(JUMPERLOFT1_NEW, 0, 0, 1) == JUMPERLOFT1_DONE, "no new version");
    for (uint32_t length = 0; length < JUMPERLOFT1_MAX_LENGTH; length += PAIRS) {
        for (uint8_t i = 0; i < PAIRS; i++) {
            jumperloft1_put_frame(frames + 24 * i, 1, JUMPERLOFT1_PUSH_BACK, i % 2, 1 - i % 2, 0, length + i);
            jumperloft1_put_frame(frames + 24 * i + 12, 1, JUMPERLOFT1_RELEASE, i % 2, 0, 0, 0);
        }
        must(jumperloft1_run(&state, frames, sizeof frames, answers, sizeof answers).number == JUMPERLOFT1_DONE, "no growth");
        must(answers[sizeof answers - 12] == JUMPERLOFT1_DONE, "a push was refused");
    }
    must(serve(JUMPERLOFT1_DROP_LAST, 0, 1, 0) == JUMPERLOFT1_DONE, "no drop");
    must(serve(JUMPERLOFT1_RELEASE, 0, 0, 0) == JUMPERLOFT1_DONE && serve(JUMPERLOFT1_CLONE, 1, 0, 0) == JUMPERLOFT1_DONE, "no clone");
}

/* Every figure of KiB of stack in the text is this one, and there is one. */
static void told_by(const char *path, size_t kilobytes)
{
    static const char unit[] = " KiB of stack";
    static char text[1 << 16];
    FILE *file = fopen(path, "rb");
    must(file != NULL, path);
    text[fread(text, 1, sizeof text - 1, file)] = 0;
    fclose(file);
    size_t told = 0;
    for (const char *at = strstr(text, unit); at != NULL; at = strstr(at + 1, unit)) {
        const char *from = at;
        while (from > text && from[-1] >= '0' && from[-1] <= '9') {
            from--;
        }
        if (strtoul(from, NULL, 10) != kilobytes) {
            fprintf(stderr, "stack: FAILED, %s says %.*s%s; it is %zu\n", path, (int)(at - from), from, unit, kilobytes);
            exit(1);
        }
        told++;
    }
    must(told > 0, path);
}

int main(int count, char **texts)
{
    stack = (uint8_t *)mmap(NULL, STACK, PROT_READ | PROT_WRITE, MAP_SHARED | MAP_ANONYMOUS, -1, 0);
    must(stack != (uint8_t *)MAP_FAILED && sysconf(_SC_PAGESIZE) == PAGE, "no memory in pages of 4 KiB");
    set_up(1);
    form(NULL); /* the loader binds memcpy and memset, on a stack of its own size */
    no_frames(NULL);
    const size_t forming = stack_of(form);
    const size_t least = stack_of(no_frames);
    const size_t least_faults = smaller_stacks(no_frames, least);
    set_up(JUMPERLOFT1_MAX_NODES);
    must(stack_of(form) == forming, "form needs another stack at another size");
    grow();
    const size_t most = stack_of(edits);
    const size_t faults = smaller_stacks(edits, most);
    const size_t kilobytes = (most + 1023) / 1024;
    must(most <= JUMPERLOFT1_STACK_SIZE && forming <= most, "more than the header asks for");
    for (int i = 1; i < count; i++) {
        told_by(texts[i], kilobytes);
    }
    printf("stack: a form needs %zu bytes, a batch %zu to %zu, %zu KiB, as %d texts say; a fault and never silence on each of %zu smaller stacks\n",
        forming, least, most, kilobytes, count - 1, least_faults + faults);
    free(state.cells);
    return 0;
}
