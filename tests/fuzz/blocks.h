/* Which blocks of the library's machine code an input runs, by a trap on each block's first byte.
 * The library is not compiled with coverage, so this is how the fuzzer gets to know that an input is new. */
#ifndef BLOCKS_H
#define BLOCKS_H

/* Sets a trap on every block; where counted is 0, the fuzzer is told of none. */
void trap_blocks(int counted);
/* Before each input: sets the traps again that the last input ran into, until a block was met in so many inputs that it is
 * no news. After that the block runs at full speed. */
void trap_again(void);
/* How many blocks were run by now, of how many; and if asked, where those are that weren't. */
void say_blocks(int unreached);

#endif
