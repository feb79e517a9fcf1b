/* Prints the coach order of a fleet list: all its consists, in order, each direct but the last, which
 * leads from its last vehicle. Usage: coach_order LIST */
#include "yoltsjer.h"

#include <stdio.h>
#include <stdlib.h>
#include <string.h>

enum { LONGEST_LIST = 65535, LONGEST_BOOK = 38206, LONGEST_COMPOSITION = 4303 };

static int refused(const char *what, uint32_t status, const yoltsjer_answer *answer) {
    fprintf(stderr, "%s refused: number %u", what, (unsigned)status);
    if (status == 1)
        fprintf(stderr, " line %llu byte %llu", (unsigned long long)answer->line,
                (unsigned long long)answer->place);
    else
        fprintf(stderr, " place %llu", (unsigned long long)answer->place);
    fprintf(stderr, " (docs/RULES.md lists the numbers)\n");
    return 1;
}

/* The entries of a formation, from the identities of a book, each direct. */
static size_t couple_all(const uint8_t *book, uint8_t *formation) {
    size_t count = book[2] * 256u + book[3];
    for (size_t i = 0; i < count; i++) {
        memcpy(formation + 17 * i, book + 4 + 21 * i, 16);
        formation[17 * i + 16] = 1;
    }
    return count;
}

static void print_vehicles(const uint8_t *composition) {
    const uint8_t *consists = composition + 17 + 24 * composition[16];
    const uint8_t *vehicles = consists + 1 + 20 * consists[0];
    for (size_t i = 0; i < vehicles[0]; i++) {
        const uint8_t *row = vehicles + 1 + 24 * i;
        printf("%02u %c %.16s%s\n", row[16], row[20] == 1 ? '+' : row[20] == 2 ? '-' : '?',
               (const char *)row, row[17] == 2 ? " (leads)" : "");
    }
}

int main(int argc, char **argv) {
    static uint8_t list[LONGEST_LIST], book[LONGEST_BOOK], out[LONGEST_COMPOSITION];
    static uint8_t formation[17 * 200];
    yoltsjer_answer answer;
    FILE *file = argc == 2 ? fopen(argv[1], "rb") : NULL;
    if (!file) {
        fprintf(stderr, "usage: coach_order LIST, a file with a fleet list\n");
        return 2;
    }
    size_t list_len = fread(list, 1, sizeof list, file);
    fclose(file);
    uint32_t status = yoltsjer_import_list(list, list_len, book, sizeof book, &answer);
    if (status)
        return refused("the list is", status, &answer);
    size_t book_len = answer.length;
    size_t count = couple_all(book, formation);
    const uint8_t *last = count ? book + 4 + 21 * (count - 1) : book;
    uint8_t vehicle = count ? last[20] : 0;
    status = yoltsjer_plan(book, book_len, 1, formation, 17 * count, last, count ? 16 : 0, vehicle, 2,
                           book, 0, out, sizeof out, &answer);
    if (status)
        return refused("the plan is", status, &answer);
    print_vehicles(out);
    return 0;
}
