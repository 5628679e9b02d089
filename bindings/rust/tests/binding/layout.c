/* Where the header puts each field of what crosses the boundary, and how large it is. */
#include <jumperloft.h>
#include <stdio.h>

#define WHOLE(type) printf(#type " %zu %zu\n", (size_t)_Alignof(jumperloft1_##type), sizeof(jumperloft1_##type))
#define FIELD(type, field) \
    printf(#type "." #field " %zu %zu\n", offsetof(jumperloft1_##type, field), sizeof(((jumperloft1_##type *)0)->field))

int main(void)
{
    WHOLE(version);
    FIELD(version, live);
    FIELD(version, root);
    FIELD(version, bits);
    FIELD(version, length);
    WHOLE(sizes_of);
    FIELD(sizes_of, nodes);
    FIELD(sizes_of, used);
    FIELD(sizes_of, cells);
    FIELD(sizes_of, counts);
    FIELD(sizes_of, order);
    FIELD(sizes_of, versions);
    FIELD(sizes_of, walk_numbers);
    FIELD(sizes_of, walk_nodes);
    FIELD(sizes_of, walk_indices);
    WHOLE(state);
    FIELD(state, kinds);
    FIELD(state, used);
    FIELD(state, counts);
    FIELD(state, cells);
    FIELD(state, order);
    FIELD(state, versions);
    FIELD(state, walk_numbers);
    FIELD(state, walk_nodes);
    FIELD(state, walk_indices);
    FIELD(state, sizes);
    printf("stack 1 %zu\n", (size_t)JUMPERLOFT1_STACK_SIZE);
    return 0;
}
