/* Whether libFuzzer can be linked, and code made writable: what the fuzzer needs of a machine. */
#include <stddef.h>
#include <stdint.h>
#include <stdlib.h>
#include <sys/mman.h>
#include <unistd.h>

int LLVMFuzzerTestOneInput(const uint8_t *data, size_t size)
{
    (void)data;
    (void)size;
    const uintptr_t page = (uintptr_t)sysconf(_SC_PAGESIZE), here = (uintptr_t)&LLVMFuzzerTestOneInput;
    if (mprotect((void *)(here - here % page), (size_t)page, PROT_READ | PROT_WRITE | PROT_EXEC) != 0) {
        abort();
    }
    return 0;
}
