/* Traps on the blocks of the library. */
#define _GNU_SOURCE
#include "blocks.h"

#include <signal.h>
#include <stdint.h>
#include <stdio.h>
#include <stdlib.h>
#include <string.h>
#include <sys/mman.h>
#include <ucontext.h>
#include <unistd.h>

enum { TRAP = 0xCC, NO_NEWS = 64 };

typedef struct block {
    uint8_t *code;
    const char *function;
} block;

/* written by block_table.awk, function by function; sorted by address before use */
extern block blocks[];
extern const uint64_t block_count;
extern uint8_t block_counters[]; /* which libFuzzer reads after each input and clears before it */

static uint8_t *covered;   /* what stands under a block's trap */
static uint8_t *met;       /* in how many inputs a block was run, up to NO_NEWS */
static uint64_t *run_into; /* the blocks whose traps the input at hand ran into */
static uint64_t run_into_count;
static int counting;

static int by_address(const void *a, const void *b)
{
    const block *first = (const block *)a, *second = (const block *)b;
    return (first->code > second->code) - (first->code < second->code);
}

static void on_trap(int signal_number, siginfo_t *information, void *context)
{
    (void)signal_number;
    (void)information;
    greg_t *registers = ((ucontext_t *)context)->uc_mcontext.gregs;
    const block wanted = {(uint8_t *)(uintptr_t)registers[REG_RIP] - 1, NULL};
    const block *found = (const block *)bsearch(&wanted, blocks, block_count, sizeof wanted, by_address);
    if (found == NULL || *found->code != TRAP) {
        static const char line[] = "WRONG: a trap that is none of ours\n";
        if (write(STDERR_FILENO, line, sizeof line - 1) < 0) {
            _exit(3);
        }
        abort();
    }
    const uint64_t which = (uint64_t)(found - blocks);
    *found->code = covered[which];
    block_counters[which] = (uint8_t)counting;
    run_into[run_into_count++] = which;
    registers[REG_RIP]--;
}

static void must(int ok, const char *what)
{
    if (!ok) {
        perror(what);
        exit(2);
    }
}

static void make_writable(void)
{
    const uintptr_t page = (uintptr_t)sysconf(_SC_PAGESIZE);
    uint8_t *from = blocks[0].code - (uintptr_t)blocks[0].code % page;
    const size_t size = (size_t)(blocks[block_count - 1].code + 1 - from);
    must(mprotect(from, size, PROT_READ | PROT_WRITE | PROT_EXEC) == 0, "the library's code can't be made writable");
}

void trap_blocks(int counted)
{
    counting = counted;
    qsort(blocks, block_count, sizeof blocks[0], by_address);
    covered = (uint8_t *)calloc(block_count, 1);
    met = (uint8_t *)calloc(block_count, 1);
    run_into = (uint64_t *)calloc(block_count, sizeof run_into[0]);
    must(covered != NULL && met != NULL && run_into != NULL, "memory");
    struct sigaction action;
    memset(&action, 0, sizeof action);
    action.sa_sigaction = on_trap;
    action.sa_flags = SA_SIGINFO;
    must(sigaction(SIGTRAP, &action, NULL) == 0, "sigaction");
    make_writable();
    for (uint64_t i = 0; i < block_count; i++) {
        covered[i] = *blocks[i].code;
        *blocks[i].code = TRAP;
    }
}

void trap_again(void)
{
    while (run_into_count > 0) {
        const uint64_t which = run_into[--run_into_count];
        if (++met[which] < NO_NEWS) {
            *blocks[which].code = TRAP;
        }
    }
}

void say_blocks(int unreached)
{
    trap_again();
    uint64_t reached = 0;
    for (uint64_t i = 0; i < block_count; i++) {
        reached += met[i] != 0;
    }
    fprintf(stderr, "fuzz: %llu of %llu blocks of the library's machine code were run\n", (unsigned long long)reached,
        (unsigned long long)block_count);
    const uint8_t *start = blocks[0].code;
    for (uint64_t i = 0; i < block_count; i++) {
        if (i == 0 || blocks[i].function != blocks[i - 1].function) {
            start = blocks[i].code;
        }
        if (unreached && met[i] == 0) {
            fprintf(stderr, "fuzz: not run: %s+0x%lx\n", blocks[i].function, (unsigned long)(blocks[i].code - start));
        }
    }
}
