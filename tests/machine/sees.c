/* Shows what a machine's console shows of a run: sees INPUT OUTPUT. Each input record is seen before its step. */
#include <stdbool.h>
#include <stdio.h>
#include <stdlib.h>
#include "console.h"

struct record { enum type type; uint8_t body[MOST_RECORD]; size_t size; };

static bool read_record(FILE *from, struct record *into) {
    uint8_t head[5];
    if (fread(head, sizeof head, 1, from) != 1) return false;
    into->type = (enum type)head[4], into->size = get32(head) - 1;
    return into->size < sizeof into->body && fread(into->body, 1, into->size, from) == into->size;
}
int main(int count, char **names) {
    static struct record in, out;
    FILE *input = count == 3 ? fopen(names[1], "r") : 0, *output = input ? fopen(names[2], "r") : 0;
    uint32_t number = 0;
    if (!output) return EXIT_FAILURE;
    while (read_record(output, &out)) {
        while (out.type == STEP && number < get32(out.body) && read_record(input, &in))
            number++, see_input(number, in.type, in.body, in.size);
        /* in a buffer of its own size, so that each access beyond it is found */
        uint8_t *body = malloc(out.size);
        for (size_t i = 0; i < out.size; i++) body[i] = out.body[i];
        see_output(out.type, body, out.size, "eth0");
        free(body);
    }
    return EXIT_SUCCESS;
}
