/* number_table TABLE: each line of the table, "NAME VALUE", is a constant of the header, and each constant has a line. */
#include <jumperloft.h>
#include <stdio.h>
#include <string.h>

static const struct constant {
    const char *name;
    unsigned long long value;
} constants[] = {
#include "constants.inc" /* made from the header's text by number_table.sh */
};

enum { CONSTANTS = sizeof constants / sizeof constants[0] };

static size_t place_of(const char *name)
{
    size_t i = 0;
    while (i < CONSTANTS && strcmp(constants[i].name, name) != 0) {
        i++;
    }
    return i;
}

int main(int count, char **words)
{
    static int told[CONSTANTS];
    char line[100], name[100], rest;
    unsigned long long value;
    unsigned wrong = 0;
    FILE *table = count == 2 ? fopen(words[1], "r") : NULL;
    if (table == NULL) {
        printf("number_table: FAILED, there is no table %s\n", count == 2 ? words[1] : "");
        return 2;
    }
    while (fgets(line, sizeof line, table) != NULL) {
        const int read = sscanf(line, "%99s %llu %c", name, &value, &rest);
        const size_t i = read == 2 ? place_of(name) : CONSTANTS;
        const int right = i < CONSTANTS && told[i]++ == 0 && constants[i].value == value;
        if (!right) {
            printf("number_table: FAILED, the library says %s", line);
            wrong++;
        }
    }
    fclose(table);
    for (size_t i = 0; i < CONSTANTS; i++) {
        if (told[i] != 1) {
            printf("number_table: FAILED, the header's JUMPERLOFT1_%s is told %d times\n", constants[i].name, told[i]);
            wrong++;
        }
    }
    if (wrong == 0) {
        printf("number_table: %d constants of the header are the library's own, and the library has no other\n", (int)CONSTANTS);
    }
    return wrong != 0;
}
