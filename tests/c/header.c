/* The header by itself, twice, in C11 and in C++17: the place of every field, and that the library has it there too. */
#include <jumperloft.h>
#include <jumperloft.h>

#include <assert.h>
#include <stdio.h>
#include <stdlib.h>

#define PLACE(type, field, at, size)                                             \
    static_assert(offsetof(type, field) == (at), #type "." #field " is elsewhere"); \
    static_assert(sizeof(((type *)0)->field) == (size), #type "." #field " has another size")

enum { WORD = sizeof(size_t), POINTER = sizeof(void *) };

PLACE(jumperloft1_version, live, 0, 4);
PLACE(jumperloft1_version, root, 4, 4);
PLACE(jumperloft1_version, bits, 8, 4);
PLACE(jumperloft1_version, length, 12, 4);
static_assert(sizeof(jumperloft1_version) == 16, "a version record has 16 bytes");

PLACE(jumperloft1_report, number, 0, 4);
PLACE(jumperloft1_report, frames, WORD, WORD);
static_assert(sizeof(jumperloft1_report) == 2 * WORD, "a report has two words");

PLACE(jumperloft1_sizes_of, nodes, 0, WORD);
PLACE(jumperloft1_sizes_of, used, 1 * WORD, WORD);
PLACE(jumperloft1_sizes_of, cells, 2 * WORD, WORD);
PLACE(jumperloft1_sizes_of, counts, 3 * WORD, WORD);
PLACE(jumperloft1_sizes_of, order, 4 * WORD, WORD);
PLACE(jumperloft1_sizes_of, versions, 5 * WORD, WORD);
PLACE(jumperloft1_sizes_of, walk_numbers, 6 * WORD, WORD);
PLACE(jumperloft1_sizes_of, walk_nodes, 7 * WORD, WORD);
PLACE(jumperloft1_sizes_of, walk_indices, 8 * WORD, WORD);
static_assert(sizeof(jumperloft1_sizes_of) == 9 * WORD, "there are nine sizes");

PLACE(jumperloft1_state, kinds, 0, POINTER);
PLACE(jumperloft1_state, used, 1 * POINTER, POINTER);
PLACE(jumperloft1_state, counts, 2 * POINTER, POINTER);
PLACE(jumperloft1_state, cells, 3 * POINTER, POINTER);
PLACE(jumperloft1_state, order, 4 * POINTER, POINTER);
PLACE(jumperloft1_state, versions, 5 * POINTER, POINTER);
PLACE(jumperloft1_state, walk_numbers, 6 * POINTER, POINTER);
PLACE(jumperloft1_state, walk_nodes, 7 * POINTER, POINTER);
PLACE(jumperloft1_state, walk_indices, 8 * POINTER, POINTER);
PLACE(jumperloft1_state, sizes, 9 * POINTER, 9 * WORD);
static_assert(sizeof(jumperloft1_state) == 9 * POINTER + 9 * WORD, "nine slices, their sizes, and nothing else");

PLACE(jumperloft1_answer, number, 0, 1);
PLACE(jumperloft1_answer, fresh, 1, 1);
PLACE(jumperloft1_answer, value, 4, 4);
static_assert(sizeof(jumperloft1_answer) == 8, "an answer is two words of 32 bits");

static_assert(JUMPERLOFT1_STACK_SIZE == 1024 * 1024, "the README says 1 MiB");

static int wrong;

static void want(int ok, const char *what)
{
    if (!ok) {
        printf("header: WRONG, %s\n", what);
        wrong = 1;
    }
}

int main(void)
{
    jumperloft1_state state;
    uint8_t frames[6 * JUMPERLOFT1_FRAME_SIZE], room[6 * JUMPERLOFT1_ANSWER_SIZE];
    void *memory = malloc(jumperloft1_bytes_for(9));
    if (!jumperloft1_lay_out(memory, 9, &state) || jumperloft1_form_state(&state).number != JUMPERLOFT1_DONE) {
        puts("header: WRONG, no state");
        return 1;
    }
    const jumperloft1_sizes_of n = state.sizes;
    want(n.nodes == 9 && n.used == 9 && n.counts == 9 && n.order == 9 && n.cells == 9 * JUMPERLOFT1_NODE_CELLS, "the sizes by node");
    want(n.versions == 64 && n.walk_numbers == 96 && n.walk_nodes == 480 && n.walk_indices == 480, "the sizes of the tables");

    /* the record in slot 3 of party 1 then has four different numbers: live 1, root 3, bits 4, length 2 */
    jumperloft1_put_frame(frames, 1, JUMPERLOFT1_NEW, 0, 0, 3, 0);
    jumperloft1_put_frame(frames + 12, 1, JUMPERLOFT1_NEW, 0, 1, 4, 0);
    jumperloft1_put_frame(frames + 24, 1, JUMPERLOFT1_PUSH_BACK, 1, 2, 0, 7);
    jumperloft1_put_frame(frames + 36, 1, JUMPERLOFT1_PUSH_BACK, 2, 3, 0, 0x80FF0102u);
    jumperloft1_put_frame(frames + 48, 1, JUMPERLOFT1_GET, 3, 0, 1, 0);
    jumperloft1_put_frame(frames + 60, 1, JUMPERLOFT1_GET, 3, 0, 2, 0);
    const jumperloft1_report report = jumperloft1_run(&state, frames, sizeof frames, room, sizeof room);
    want(report.number == JUMPERLOFT1_DONE && report.frames == 6, "the report");
    const jumperloft1_version version = state.versions[8 + 3];
    want(version.live == 1 && version.root == 3 && version.bits == 4 && version.length == 2, "the record of a version");
    const jumperloft1_answer pushed = jumperloft1_get_answer(room + 18), got = jumperloft1_get_answer(room + 24);
    want(pushed.number == JUMPERLOFT1_DONE && pushed.fresh == 1 && pushed.value == 0, "the answer to a push");
    want(got.number == JUMPERLOFT1_DONE && got.fresh == 0 && got.value == 0x80FF0102u, "the answer to a get");
    want(jumperloft1_get_answer(room + 30).number == JUMPERLOFT1_NOTHING_THERE, "the answer beyond the end");
    free(memory);
    if (!wrong) {
        puts("header: 28 fields of 5 structs at their places, and the library's answers are read from them");
    }
    return wrong;
}
