/* A line of the stored vectors; the top of tools/reference.py says what the lines mean. */
#ifndef VECTOR_LINE_H
#define VECTOR_LINE_H

#include "checks.h"

typedef struct {
    const char *line;
    const char *next; /* what is not read yet: a space and a number, and so on */
    int is_read;      /* whether every field that was read is a number within its limits */
} vector;

/* Takes the next field as a part of the input; 0 where it is no such number. */
uint64_t next_number(vector *v, uint64_t largest);
int64_t next_signed(vector *v, int64_t least, int64_t largest);

/* Takes the next fields as a list, or as a repeated list, of at most so many numbers. Gives how many they are, or come to. */
size_t next_list(vector *v, int16_t *numbers, size_t most);
size_t next_repeated(vector *v, int16_t *numbers, size_t most);

/* Compares the next field with what the archive gave, which is named for the message. */
void due(vector *v, const char *name, uint64_t given);
void due_signed(vector *v, const char *name, int64_t given);

/* The kinds of line that lend slices to be written; each stands apart. */
void row_vector(vector *v);
void layer_vector(vector *v);

#endif
