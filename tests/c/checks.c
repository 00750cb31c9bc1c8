#include "checks.h"

#include <stdarg.h>
#include <stdio.h>
#include <stdlib.h>

/* How many failed comparisons are printed in full. */
enum { SHOWN = 20 };

static uint64_t compared, compared_before, wrong;

void compare(int equal, const char *message, ...) {
    compared++;
    wrong += !equal;
    if (equal || wrong > SHOWN)
        return;
    va_list arguments;
    va_start(arguments, message);
    printf("wrong: ");
    vprintf(message, arguments);
    printf("\n");
    va_end(arguments);
}

void part(const char *what) {
    printf("%9" PRIu64 "  %s\n", compared - compared_before, what);
    fflush(stdout);
    compared_before = compared;
}

void *had(void *thing, const char *what) {
    if (thing == NULL) {
        perror(what);
        exit(1);
    }
    return thing;
}

char *text_of(const char *file, size_t *length) {
    enum { MOST = 1 << 21 };
    FILE *stream = had(fopen(file, "rb"), file);
    char *text = had(malloc(MOST + 1), "room for a file");
    *length = fread(text, 1, MOST, stream);
    text[*length] = 0;
    compare(!ferror(stream) && fgetc(stream) == EOF, "%s cannot be read whole, or is longer than %d bytes", file, MOST);
    fclose(stream);
    return text;
}

int main(int count, char **names) {
    if (count != 4) {
        fprintf(stderr, "usage: checks VECTORS RECORDS TEXT\n");
        return 2;
    }
    check_names();
    check_vectors(names[1]);
    check_transcripts(names[2], names[3]);
    check_lengths();
    printf("c: %" PRIu64 " comparisons, %" PRIu64 " wrong\n", compared, wrong);
    return wrong != 0;
}
