#include <jumperloft.h>
#include <stdio.h>
#include <stdlib.h>

int main(void)
{
    /* lend: one block of memory for a state of 256 nodes */
    jumperloft1_state state;
    void *memory = malloc(jumperloft1_bytes_for(256));
    if (!jumperloft1_lay_out(memory, 256, &state) || jumperloft1_form_state(&state).number != JUMPERLOFT1_DONE)
        return 1;

    /* party 1: a new list in slot 0, the list with 7 pushed in slot 1, its first element */
    uint8_t frames[3 * JUMPERLOFT1_FRAME_SIZE], room[3 * JUMPERLOFT1_ANSWER_SIZE];
    jumperloft1_put_frame(frames, 1, JUMPERLOFT1_NEW, 0, 0, JUMPERLOFT1_DEFAULT_BITS, 0);
    jumperloft1_put_frame(frames + 12, 1, JUMPERLOFT1_PUSH_BACK, 0, 1, 0, 7);
    jumperloft1_put_frame(frames + 24, 1, JUMPERLOFT1_GET, 1, 0, 0, 0);
    jumperloft1_report report = jumperloft1_run(&state, frames, sizeof frames, room, sizeof room);

    jumperloft1_answer answer = jumperloft1_get_answer(room + 12);
    printf("%u: %zu frames ran\n", (unsigned)report.number, report.frames);
    printf("%u: element 0 is %u\n", (unsigned)answer.number, (unsigned)answer.value);
    free(memory);
    return 0;
}
