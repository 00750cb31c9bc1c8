#include "vector_line.h"

#include <stdio.h>
#include <stdlib.h>
#include <string.h>

/* Room for every number in decimal, and a 0 after it. */
enum { ROOM = 24 };

/* Passes over the next field and copies its text; none where there is no field, or one longer than any number. */
static void field(vector *v, char text[ROOM]) {
    size_t length = *v->next == ' ' ? 1 + strcspn(v->next + 1, " ") : 0;
    snprintf(text, ROOM, "%.*s", length > 1 && length <= ROOM ? (int)length - 1 : 0, v->next + (length > 0));
    v->next += length;
}

/* A text counts as a number where the number is printed as that very text, so that nothing but digits and a sign is let through. */

uint64_t next_number(vector *v, uint64_t largest) {
    char text[ROOM], printed[ROOM];
    field(v, text);
    uint64_t number = strtoull(text, NULL, 10);
    snprintf(printed, ROOM, "%" PRIu64, number);
    int is_number = number <= largest && strcmp(text, printed) == 0;
    v->is_read &= is_number;
    return is_number ? number : 0;
}

int64_t next_signed(vector *v, int64_t least, int64_t largest) {
    char text[ROOM], printed[ROOM];
    field(v, text);
    int64_t number = strtoll(text, NULL, 10);
    snprintf(printed, ROOM, "%" PRId64, number);
    int is_number = least <= number && number <= largest && strcmp(text, printed) == 0;
    v->is_read &= is_number;
    return is_number ? number : 0;
}

size_t next_list(vector *v, int16_t *numbers, size_t most) {
    size_t length = next_number(v, most);
    for (size_t i = 0; i < length; i++)
        numbers[i] = (int16_t)next_signed(v, INT16_MIN, INT16_MAX);
    return length;
}

size_t next_repeated(vector *v, int16_t *numbers, size_t most) {
    size_t length = next_number(v, most), count = next_list(v, numbers, most);
    v->is_read &= count <= length && (count == 0) == (length == 0);
    for (size_t i = count; i < length; i++)
        numbers[i] = numbers[i - count];
    return length;
}

static void due_text(vector *v, const char *name, const char *given) {
    char text[ROOM];
    field(v, text);
    compare(strcmp(text, given) == 0, "%s is %s and not %s in: %.200s", name, given, text, v->line);
}

void due(vector *v, const char *name, uint64_t given) {
    char printed[ROOM];
    snprintf(printed, ROOM, "%" PRIu64, given);
    due_text(v, name, printed);
}

void due_signed(vector *v, const char *name, int64_t given) {
    char printed[ROOM];
    snprintf(printed, ROOM, "%" PRId64, given);
    due_text(v, name, printed);
}
