/* replay LINES ANSWERS: a recorded session of the program through jumperloft1_batch, in batches of three sizes; needs no Rust.
 * A line that isn't a frame is the program's own affair: only that its recorded answer is 14 is looked at. */
#include <jumperloft.h>
#include <stdio.h>
#include <stdlib.h>
#include <string.h>

enum {
    NODES = 256, /* as the program has */
    FRAME_DIGITS = 2 * JUMPERLOFT1_FRAME_SIZE,
    ANSWER_DIGITS = 2 * JUMPERLOFT1_ANSWER_SIZE
};

typedef struct session {
    uint8_t *frames, *answers;
    size_t count;  /* of frames */
    size_t others; /* lines that aren't frames */
} session;

static void fail(const char *path, const char *what, size_t where)
{
    printf("replay: %s: %s %zu\n", path, what, where);
    exit(1);
}

static char *whole_file(const char *path, size_t *size)
{
    FILE *file = fopen(path, "rb");
    char *text = NULL;
    size_t room = 0, more = 1;
    for (*size = 0; file != NULL && more != 0; *size += more) {
        room = *size + 65536;
        text = realloc(text, room);
        more = text == NULL ? 0 : fread(text + *size, 1, room - *size, file);
    }
    if (file == NULL || text == NULL || fclose(file) != 0)
        fail(path, "can't be read after byte", *size);
    return text;
}

/* Capitals alone; says whether all are digits. */
static int put_bytes(uint8_t *bytes, const char *digits, size_t count)
{
    static const char all[] = "0123456789ABCDEF";
    memset(bytes, 0, count / 2);
    for (size_t i = 0; i < count; i++) {
        const char *digit = memchr(all, digits[i], 16);
        if (digit == NULL)
            return 0;
        bytes[i / 2] = (uint8_t)(bytes[i / 2] << 4 | (digit - all));
    }
    return 1;
}

/* Every line has one answer; the last line may lack its line feed, and then it is no frame. */
static session read_session(const char *lines_path, const char *answers_path)
{
    size_t size, answers_size, line = 0;
    char *lines = whole_file(lines_path, &size), *answers = whole_file(answers_path, &answers_size);
    /* a frame's line has more bytes than the frame and its answer */
    session made = {malloc(size + JUMPERLOFT1_FRAME_SIZE), malloc(size + JUMPERLOFT1_ANSWER_SIZE), 0, 0};
    if (made.frames == NULL || made.answers == NULL)
        fail(lines_path, "no memory for bytes", size);
    for (size_t at = 0; at < size; line++) {
        const char *end = memchr(lines + at, '\n', size - at);
        size_t length = end == NULL ? size - at : (size_t)(end - (lines + at));
        const char *answer = answers + line * (ANSWER_DIGITS + 1);
        uint8_t *wanted = made.answers + made.count * JUMPERLOFT1_ANSWER_SIZE;
        if ((line + 1) * (ANSWER_DIGITS + 1) > answers_size || !put_bytes(wanted, answer, ANSWER_DIGITS))
            fail(answers_path, "no answer to line", line + 1);
        int is_frame = end != NULL && length == FRAME_DIGITS
            && put_bytes(made.frames + made.count * JUMPERLOFT1_FRAME_SIZE, lines + at, FRAME_DIGITS);
        if (is_frame == (wanted[0] == JUMPERLOFT1_NOT_A_FRAME))
            fail(answers_path, "14 is for lines that aren't frames alone; line", line + 1);
        made.count += (size_t)is_frame;
        made.others += (size_t)!is_frame;
        at += length + 1;
    }
    if (answers_size != line * (ANSWER_DIGITS + 1))
        fail(answers_path, "more answers than lines,", line);
    free(lines);
    free(answers);
    return made;
}

static void replay(const char *path, const session *recorded, size_t frames_a_batch)
{
    jumperloft1_state state;
    void *memory = malloc(jumperloft1_bytes_for(NODES));
    uint8_t *room = malloc(recorded->count * JUMPERLOFT1_ANSWER_SIZE);
    if (room == NULL || !jumperloft1_lay_out(memory, NODES, &state) || jumperloft1_form_state(&state).number != JUMPERLOFT1_DONE)
        fail(path, "no state of nodes", NODES);
    for (size_t at = 0; at < recorded->count; at += frames_a_batch) {
        size_t frames = recorded->count - at < frames_a_batch ? recorded->count - at : frames_a_batch;
        jumperloft1_report report = jumperloft1_run(&state, recorded->frames + at * JUMPERLOFT1_FRAME_SIZE,
            frames * JUMPERLOFT1_FRAME_SIZE, room + at * JUMPERLOFT1_ANSWER_SIZE, frames * JUMPERLOFT1_ANSWER_SIZE);
        if (report.number != JUMPERLOFT1_DONE || report.frames != frames)
            fail(path, "a batch is refused at frame", at);
    }
    for (size_t i = 0; i < recorded->count * JUMPERLOFT1_ANSWER_SIZE; i++)
        if (room[i] != recorded->answers[i])
            fail(path, "another answer than recorded to frame", i / JUMPERLOFT1_ANSWER_SIZE);
    free(room);
    free(memory);
}

int main(int count, char **arguments)
{
    if (count != 3) {
        printf("usage: replay LINES ANSWERS\n");
        return 2;
    }
    session recorded = read_session(arguments[1], arguments[2]);
    replay(arguments[1], &recorded, 1);
    replay(arguments[1], &recorded, 100);
    replay(arguments[1], &recorded, recorded.count);
    printf("replay: %s, %zu frames answered as recorded, by ones, by hundreds and as one batch; %zu lines aren't frames\n",
        arguments[1], recorded.count, recorded.others);
    free(recorded.frames);
    free(recorded.answers);
    return 0;
}
