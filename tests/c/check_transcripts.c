/* Transcripts: every byte of the text and of the buffer after it, and the input as it was. */
#include <stdio.h>
#include <stdlib.h>
#include <string.h>

#include "lent.h"

static uint8_t input[HIGHVANE_INPUT_MAX + 1], out[HIGHVANE_TRANSCRIPT_MAX];
static lent input_memory, out_memory;

/* Before the call the places of the buffer hold numbers that differ from place to place, and at an end of it their complements. */
static uint8_t *lend_out(enum place place) {
    for (size_t i = 0; i < sizeof out; i++)
        out[i] = (uint8_t)(place == AT_START ? i % 251 : ~(i % 251));
    return lend(&out_memory, out, sizeof out, place);
}

static void check_text(const char *what, const uint8_t *bytes, size_t length, const char *text) {
    for (enum place place = AT_START; place < PLACES; place++) {
        const uint8_t *lent_input = lend(&input_memory, bytes, length, place);
        size_t given = highvane_transcript(lent_input, length, lend_out(place));
        compare(given == strlen(text), "%s: %zu bytes are written, not %zu", what, given, strlen(text));
        memcpy(out, text, strlen(text));
        compare_lent(&out_memory, out, what);
        compare_lent(&input_memory, bytes, what);
    }
}

/* A record of every kind, and where its body ends; cut at every byte before, it is refused. */
static void cut_records(void) {
    static const struct { uint8_t kind; size_t length; } whole[] = {{1, 7}, {2, 9}, {3, 3}};
    char text[40];
    for (size_t i = 0; i < COUNT(whole); i++)
        for (size_t length = 1; length < whole[i].length; length++) {
            const uint8_t record[9] = {whole[i].kind};
            snprintf(text, sizeof text, "%d no %d\ntotal 0 1\n", whole[i].kind, HIGHVANE_CUT_SHORT);
            check_text("a cut record", record, length, text);
        }
    part("transcripts of records that are cut at every byte");
}

/* The longest text is that of as many records as there can be, each with the most digits, and of a byte that begins no record. */
static void longest(void) {
    static const char line[] = "3 ok 65024\n";
    static char text[HIGHVANE_TRANSCRIPT_MAX];
    size_t records = HIGHVANE_INPUT_MAX / 3, lines = records * strlen(line);
    for (size_t i = 0; i < records; i++)
        memcpy(text + i * strlen(line), line, strlen(line));
    memset(input, 255, sizeof input);
    for (size_t i = 0; i < records; i++)
        input[3 * i] = 3;
    snprintf(text + lines, sizeof text - lines, "total %zu 0\n", records);
    check_text("65,535 bytes", input, HIGHVANE_INPUT_MAX - 1, text);
    snprintf(text + lines, sizeof text - lines, "255 no %d\ntotal %zu 1\n", HIGHVANE_UNKNOWN_KIND, records);
    compare(strlen(text) == 240319, "the longest text has %zu bytes", strlen(text));
    check_text("65,536 bytes, the longest text", input, HIGHVANE_INPUT_MAX, text);
    check_text("65,537 bytes", input, HIGHVANE_INPUT_MAX + 1, "0 no 19\ntotal 0 1\n");
    part("transcripts of 65,535 to 65,537 bytes, the longest text among them");
}

/* Bytes need no alignment, so the text may begin at any address. */
static void any_address(const uint8_t *records, size_t length, const char *text) {
    uint8_t *room = had(malloc(HIGHVANE_TRANSCRIPT_MAX + 15), "room for a transcript");
    for (size_t address = 0; address < 16; address++) {
        size_t given = highvane_transcript(records, length, room + address);
        compare(given == strlen(text) && memcmp(room + address, text, given) == 0,
                "the sample's text differs where the buffer lies %zu bytes on", address);
    }
    free(room);
    part("the sample's transcript at any address");
}

void check_transcripts(const char *records, const char *text) {
    size_t length, text_length;
    char *sample = text_of(records, &length), *sample_text = text_of(text, &text_length);
    input_memory = lent_pages(sizeof input);
    out_memory = lent_pages(sizeof out);
    check_text("no input", NULL, 0, "total 0 0\n");
    check_text("the sample", (uint8_t *)sample, length, sample_text);
    part("transcripts of no input and of the sample");
    cut_records();
    longest();
    any_address((uint8_t *)sample, length, sample_text);
    free(sample);
    free(sample_text);
}
