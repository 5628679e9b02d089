/* A plug-in of a layout program: it edits what the host handed over to its party, by frames that the host runs,
 * or by itself where it is lent the state. */
#include <jumperloft.h>

#define EXPORTED __attribute__((visibility("default")))

enum { FRAMES = 5 };

EXPORTED size_t plugin_write(uint8_t *frames, size_t room);
EXPORTED uint32_t plugin_read(const uint8_t *answers, size_t count);
EXPORTED uint32_t plugin_edit(const jumperloft1_state *state, uint8_t party);

/* Takes the list in slot 0; leaves a clone of it in slot 1, its second element set in slot 2, and two more elements
 * pushed in slot 4. The party of the frames is the host's to set. Returns how many bytes it wrote. */
size_t plugin_write(uint8_t *frames, size_t room)
{
    if (room < FRAMES * JUMPERLOFT1_FRAME_SIZE) {
        return 0;
    }
    jumperloft1_put_frame(frames, 0, JUMPERLOFT1_CLONE, 0, 1, 0, 0);
    jumperloft1_put_frame(frames + 12, 0, JUMPERLOFT1_SET, 1, 2, 1, 500);
    jumperloft1_put_frame(frames + 24, 0, JUMPERLOFT1_PUSH_BACK, 2, 3, 0, 700);
    jumperloft1_put_frame(frames + 36, 0, JUMPERLOFT1_PUSH_BACK, 3, 4, 0, 900);
    jumperloft1_put_frame(frames + 48, 0, JUMPERLOFT1_RELEASE, 3, 0, 0, 0);
    return FRAMES * JUMPERLOFT1_FRAME_SIZE;
}

/* Returns 0, or the first number that isn't. */
uint32_t plugin_read(const uint8_t *answers, size_t count)
{
    for (size_t at = 0; at < count; at += JUMPERLOFT1_ANSWER_SIZE) {
        const jumperloft1_answer answer = jumperloft1_get_answer(answers + at);
        if (answer.number != JUMPERLOFT1_DONE) {
            return answer.number;
        }
    }
    return JUMPERLOFT1_DONE;
}

/* Lent the state, it runs its frames itself, by its own copy of the library. */
uint32_t plugin_edit(const jumperloft1_state *state, uint8_t party)
{
    uint8_t frames[FRAMES * JUMPERLOFT1_FRAME_SIZE], room[FRAMES * JUMPERLOFT1_ANSWER_SIZE];
    jumperloft1_set_party(frames, plugin_write(frames, sizeof frames), party);
    const jumperloft1_report report = jumperloft1_run(state, frames, sizeof frames, room, sizeof room);
    return report.number != JUMPERLOFT1_DONE ? report.number : plugin_read(room, sizeof room);
}
