/* A plug-in for examples/host.c that writes the numbers of other parties into its frames; what each would do to them
 * stands beside it. The host sets its own number in all of them, and it must get nowhere. */
#include <jumperloft.h>

#define EXPORTED __attribute__((visibility("default")))

EXPORTED size_t plugin_write(uint8_t *frames, size_t room);
EXPORTED uint32_t plugin_read(const uint8_t *answers, size_t count);

enum { HOST = 0, AUTHOR = 1, FORGER = 2 };

/* A frame, and the number that answers it when the forger's own party stands in it. */
static const struct {
    uint8_t party, operation, slot, destination, index, number;
} forged[] = {
    {AUTHOR, JUMPERLOFT1_SET, 3, 5, 0, JUMPERLOFT1_EMPTY_SOURCE},       /* a list in the author's slot 5 */
    {AUTHOR, JUMPERLOFT1_RELEASE, 3, 0, 0, JUMPERLOFT1_EMPTY_SOURCE},   /* the author's list is gone */
    {HOST, JUMPERLOFT1_HAND_OVER, 2, 3, AUTHOR, JUMPERLOFT1_HOST_ONLY}, /* another of the author's lists is taken */
    {HOST, JUMPERLOFT1_FREE_NODES, 0, 0, 0, JUMPERLOFT1_HOST_ONLY}};    /* what only the host may know */
enum { FORGED = sizeof forged / sizeof forged[0] };

size_t plugin_write(uint8_t *frames, size_t room)
{
    for (size_t i = 0; i < FORGED && JUMPERLOFT1_FRAME_SIZE * FORGED <= room; i++) {
        jumperloft1_put_frame(frames + JUMPERLOFT1_FRAME_SIZE * i, forged[i].party, forged[i].operation, forged[i].slot,
            forged[i].destination, forged[i].index, FORGER);
    }
    return JUMPERLOFT1_FRAME_SIZE * FORGED;
}

/* Returns 0 if each was refused as a frame of its own party is. */
uint32_t plugin_read(const uint8_t *answers, size_t count)
{
    uint32_t wrong = count != JUMPERLOFT1_ANSWER_SIZE * FORGED;
    for (size_t i = 0; i < FORGED; i++) {
        wrong += jumperloft1_get_answer(answers + JUMPERLOFT1_ANSWER_SIZE * i).number != forged[i].number;
    }
    return wrong;
}
