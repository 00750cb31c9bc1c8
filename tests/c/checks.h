/*
 * The parts of the test, and what they share. It shows of the archive what only a caller in C can: the names and the layout that the
 * header declares, and what becomes of memory that is lent. Values it takes from the stored vectors.
 */
#ifndef CHECKS_H
#define CHECKS_H

#include <inttypes.h>
#include <stddef.h>

#include "highvane.h"

#define COUNT(array) (sizeof(array) / sizeof((array)[0]))

/* Counts a comparison. Where it failed it is counted as wrong, and the message, with the input and both answers, is printed. */
__attribute__((format(printf, 2, 3))) void compare(int equal, const char *message, ...);

/* Prints of what how much was compared since the part before. */
void part(const char *what);

/* Ends the test where something cannot be had. */
void *had(void *thing, const char *what);

/* What a file holds, and a 0 after its last byte. */
char *text_of(const char *file, size_t *length);

void check_names(void);
void check_vectors(const char *vectors);
void check_transcripts(const char *records, const char *text);
void check_lengths(void);

#endif
