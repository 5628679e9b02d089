/* Counters that libFuzzer reads after each input and clears before it. */
#include "seen.h"

#include "contents.h"

#include <stdalign.h>

enum { SLICES_SEEN = 9, DAMAGE_SEEN = 16, PLACES_SEEN = 32, OPERATIONS_SEEN = 18, NUMBERS_SEEN = 16 };
enum { BITS_SEEN = 8, LENGTHS_SEEN = 32, AMOUNTS_SEEN = 32 };

/* each a multiple of 8 bytes, as libFuzzer clears words; volatile, as nothing in sight reads them */
#define COUNTERS static alignas(8) __attribute__((section("__libfuzzer_extra_counters"))) volatile uint8_t
COUNTERS answers[OPERATIONS_SEEN][NUMBERS_SEEN];
COUNTERS damages[SLICES_SEEN][DAMAGE_SEEN][NUMBERS_SEEN];
COUNTERS places[SLICES_SEEN][PLACES_SEEN][NUMBERS_SEEN];
COUNTERS lists[BITS_SEEN][LENGTHS_SEEN];
COUNTERS free_amounts[AMOUNTS_SEEN];
COUNTERS shared_amounts[AMOUNTS_SEEN];
COUNTERS walks[AMOUNTS_SEEN];
COUNTERS taken_amounts[AMOUNTS_SEEN];

static int blind;

void see_nothing(void)
{
    blind = 1;
}

static unsigned width(uint32_t number)
{
    unsigned bits = 0;
    while (number != 0) {
        number >>= 1;
        bits++;
    }
    return bits % AMOUNTS_SEEN;
}

void saw_answer(uint8_t operation, uint8_t number)
{
    if (!blind) {
        answers[operation < OPERATIONS_SEEN ? operation : OPERATIONS_SEEN - 1][number % NUMBERS_SEEN] = 1;
    }
}

void saw_damage(unsigned slice, unsigned how, size_t place, uint32_t number)
{
    if (!blind) {
        damages[slice % SLICES_SEEN][how % DAMAGE_SEEN][number % NUMBERS_SEEN] = 1;
        places[slice % SLICES_SEEN][place % PLACES_SEEN][number % NUMBERS_SEEN] = 1;
    }
}

void saw_state(const jumperloft1_state *state)
{
    if (blind) {
        return;
    }
    uint32_t free_nodes = 0, most_shared = 0, open = 0;
    for (size_t i = 0; i < JUMPERLOFT1_VERSIONS; i++) {
        const jumperloft1_version *v = &state->versions[i];
        if (v->live != 0) {
            lists[v->bits % BITS_SEEN][width(v->length)] = 1;
        }
    }
    for (size_t i = 0; i < state->sizes.nodes; i++) {
        free_nodes += state->kinds[i] == FREE_KIND;
        most_shared = state->counts[i] > most_shared ? state->counts[i] : most_shared;
    }
    for (size_t i = 0; i < JUMPERLOFT1_WALK_NUMBERS; i += WALK_RECORD) {
        open += state->walk_numbers[i + WALK_LIVE];
        taken_amounts[width(state->walk_numbers[i + TAKEN_IN_FRONT])] = 1;
        taken_amounts[width(state->walk_numbers[i + TAKEN_AT_BACK])] = 1;
    }
    free_amounts[width(free_nodes)] = 1;
    shared_amounts[width(most_shared)] = 1;
    walks[open % AMOUNTS_SEEN] = 1;
}
