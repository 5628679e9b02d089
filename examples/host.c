/* A host: forms a state of 256 nodes, makes a list of fonts for party 1, and lets a plug-in edit as party 2.
 * host PLUGIN keeps the state and runs the frames that the plug-in writes;
 * host --lend PLUGIN lends the state to a plug-in that it trusts. */
#include <jumperloft.h>

#include <dlfcn.h>
#include <stdio.h>
#include <stdlib.h>
#include <string.h>

enum { NODES = 256, HOST = 0, AUTHOR = 1, PLUGIN = 2, PLUGIN_FRAMES = 16 };

/* What a plug-in exports: plugin_write and plugin_read, or, if it is lent the state, plugin_edit. */
typedef size_t write_function(uint8_t *frames, size_t room); /* returns how many bytes it wrote */
typedef uint32_t read_function(const uint8_t *answers, size_t count);
typedef uint32_t edit_function(const jumperloft1_state *state, uint8_t party);

static void stop(const char *why)
{
    fprintf(stderr, "host: %s\n", why);
    exit(1);
}

static void run(const jumperloft1_state *state, const uint8_t *frames, size_t count, uint8_t *answers)
{
    const size_t bytes = JUMPERLOFT1_FRAME_SIZE * count, room = JUMPERLOFT1_ANSWER_SIZE * count;
    if (jumperloft1_run(state, frames, bytes, answers, room).number != JUMPERLOFT1_DONE) {
        stop("the batch was refused");
    }
}

/* A batch of one frame. */
static jumperloft1_answer ask(const jumperloft1_state *state, uint8_t party, uint8_t operation,
    uint8_t slot, uint8_t destination, uint32_t index, uint32_t value)
{
    uint8_t frame[JUMPERLOFT1_FRAME_SIZE], room[JUMPERLOFT1_ANSWER_SIZE];
    jumperloft1_put_frame(frame, party, operation, slot, destination, index, value);
    run(state, frame, 1, room);
    return jumperloft1_get_answer(room);
}

static void print_free_nodes(const jumperloft1_state *state)
{
    printf("free nodes: %u\n", (unsigned)ask(state, HOST, JUMPERLOFT1_FREE_NODES, 0, 0, 0, 0).value);
}

/* Prints a slot's list by walk 0 of its party, from the front to the end; all steps in one batch, for each batch audits. */
static void print_list(const jumperloft1_state *state, uint8_t party, uint8_t slot)
{
    static uint8_t frames[(JUMPERLOFT1_MAX_LENGTH + 2) * JUMPERLOFT1_FRAME_SIZE];
    static uint8_t room[(JUMPERLOFT1_MAX_LENGTH + 2) * JUMPERLOFT1_ANSWER_SIZE];
    const jumperloft1_answer length = ask(state, party, JUMPERLOFT1_LEN, slot, 0, 0, 0);
    if (length.number != JUMPERLOFT1_DONE || length.value > JUMPERLOFT1_MAX_LENGTH) {
        printf("party %u, slot %u: number %u\n", party, slot, length.number);
        return;
    }
    const size_t steps = length.value;
    jumperloft1_put_frame(frames, party, JUMPERLOFT1_OPEN_WALK, slot, 0, 0, 0);
    for (size_t i = 1; i <= steps; i++) {
        jumperloft1_put_frame(frames + JUMPERLOFT1_FRAME_SIZE * i, party, JUMPERLOFT1_NEXT, 0, 0, 0, 0);
    }
    jumperloft1_put_frame(frames + JUMPERLOFT1_FRAME_SIZE * (steps + 1), party, JUMPERLOFT1_CLOSE_WALK, 0, 0, 0, 0);
    run(state, frames, steps + 2, room);
    printf("party %u, slot %u:", party, slot);
    for (size_t i = 1; i <= steps; i++) {
        printf(" %u", (unsigned)jumperloft1_get_answer(room + JUMPERLOFT1_ANSWER_SIZE * i).value);
    }
    printf("\n");
}

/* Party 1 gets the fonts' weights in slots 0 to 3, one more in each; all in one batch. */
static void make_fonts(const jumperloft1_state *state)
{
    static const uint32_t weights[] = {300, 400, 600};
    uint8_t frames[4 * JUMPERLOFT1_FRAME_SIZE], room[4 * JUMPERLOFT1_ANSWER_SIZE];
    jumperloft1_put_frame(frames, AUTHOR, JUMPERLOFT1_NEW, 0, 0, JUMPERLOFT1_DEFAULT_BITS, 0);
    for (uint8_t i = 0; i < 3; i++) {
        jumperloft1_put_frame(frames + 12 * (i + 1), AUTHOR, JUMPERLOFT1_PUSH_BACK, i, (uint8_t)(i + 1), 0, weights[i]);
    }
    const jumperloft1_report report = jumperloft1_run(state, frames, sizeof frames, room, sizeof room);
    printf("report: number %u, %zu frames\n", (unsigned)report.number, report.frames);
    for (size_t i = 0; i < report.frames; i++) {
        const jumperloft1_answer answer = jumperloft1_get_answer(room + JUMPERLOFT1_ANSWER_SIZE * i);
        printf("answer %zu: number %u, fresh %u, value %u\n", i, answer.number, answer.fresh, (unsigned)answer.value);
    }
}

/* ISO C has no cast from a pointer to a function, so it is copied. */
static void find(void *plugin, const char *name, void *function)
{
    void *symbol = dlsym(plugin, name);
    if (symbol == NULL) {
        stop(dlerror());
    }
    memcpy(function, &symbol, sizeof symbol);
}

/* The plug-in gets no pointer to the state, and its frames bear the party that the host gives them, whatever it wrote. */
static uint32_t run_frames_of(void *plugin, const jumperloft1_state *state)
{
    uint8_t frames[PLUGIN_FRAMES * JUMPERLOFT1_FRAME_SIZE], room[PLUGIN_FRAMES * JUMPERLOFT1_ANSWER_SIZE];
    write_function *plugin_write;
    read_function *plugin_read;
    find(plugin, "plugin_write", &plugin_write);
    find(plugin, "plugin_read", &plugin_read);
    const size_t written = plugin_write(frames, sizeof frames);
    if (written > sizeof frames) {
        stop("the plug-in says that it wrote more than there is room for");
    }
    jumperloft1_set_party(frames, written, PLUGIN);
    const jumperloft1_report report = jumperloft1_run(state, frames, written, room, sizeof room);
    return report.number != JUMPERLOFT1_DONE ? report.number : plugin_read(room, JUMPERLOFT1_ANSWER_SIZE * report.frames);
}

static uint32_t lend_to(void *plugin, const jumperloft1_state *state)
{
    edit_function *plugin_edit;
    find(plugin, "plugin_edit", &plugin_edit);
    return plugin_edit(state, PLUGIN);
}

int main(int count, char **words)
{
    jumperloft1_state state;
    void *memory = malloc(jumperloft1_bytes_for(NODES));
    if (!jumperloft1_lay_out(memory, NODES, &state) || jumperloft1_form_state(&state).number != JUMPERLOFT1_DONE) {
        stop("no state");
    }
    print_free_nodes(&state);
    make_fonts(&state);
    print_list(&state, AUTHOR, 3);
    print_free_nodes(&state);
    if (count > 1) {
        const int lends = strcmp(words[1], "--lend") == 0;
        void *plugin = dlopen(words[count - 1], RTLD_NOW | RTLD_LOCAL);
        if (plugin == NULL) {
            stop(dlerror());
        }
        ask(&state, HOST, JUMPERLOFT1_HAND_OVER, 3, 0, AUTHOR, PLUGIN);
        printf("plug-in: number %u\n", (unsigned)(lends ? lend_to(plugin, &state) : run_frames_of(plugin, &state)));
        for (uint8_t slot = 0; slot < 5; slot++) {
            print_list(&state, PLUGIN, slot);
        }
        print_list(&state, AUTHOR, 3);
        print_free_nodes(&state);
    }
    free(memory);
    return 0;
}
