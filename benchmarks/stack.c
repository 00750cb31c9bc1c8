/*
 * Prints how many bytes of stack each operation of the library uses. A call is made on a stack of its own, every byte of which
 * is painted; the lowest byte that is no longer as it was painted says how deep the call and all that it calls went. The depth
 * counts from the stack pointer before the call: the return address is in it, arguments that the caller puts on the stack are
 * not. Two colours are tried, so that a byte that was written with the colour itself is seen too, and each operation gets inputs
 * that lead to each of its callees, with the longest decimals for the recursion that writes them.
 */
#include <stdio.h>

#include "highvane.h"
#include "seeded.h"

enum { SIZE = 1 << 20, WORDS = 9, REGISTERS = 6 };

static uint8_t painted[SIZE] __attribute__((aligned(16)));

/* Calls `function` with the six words as its register arguments and with `stack` as the stack pointer before the call. */
void call_on(void *function, const uint64_t words[REGISTERS], void *stack);
__asm__(".text\n"
        "call_on:\n"
        "    push %rbp\n"
        "    mov %rsp, %rbp\n"
        "    mov %rdx, %rsp\n"
        "    mov %rdi, %rax\n"
        "    mov 0(%rsi), %rdi\n"
        "    mov 16(%rsi), %rdx\n"
        "    mov 24(%rsi), %rcx\n"
        "    mov 32(%rsi), %r8\n"
        "    mov 40(%rsi), %r9\n"
        "    mov 8(%rsi), %rsi\n"
        "    call *%rax\n"
        "    mov %rbp, %rsp\n"
        "    pop %rbp\n"
        "    ret\n");

static size_t depth(void *function, const uint64_t words[WORDS]) {
    size_t deepest = 0;
    for (int colour = 0; colour < 2; colour++) {
        uint8_t byte = colour ? 0x5A : 0xA5, *lowest = painted, *stack = painted + SIZE - 64;
        memset(painted, byte, SIZE);
        /* the words past the registers stand above the return address */
        memcpy(stack, words + REGISTERS, (WORDS - REGISTERS) * sizeof *words);
        call_on(function, words, stack);
        while (lowest < stack && *lowest == byte)
            lowest++;
        if ((size_t)(stack - lowest) > deepest) deepest = (size_t)(stack - lowest);
    }
    return deepest;
}

static size_t deepest;
#define TRY(function, ...) deepen(depth((void *)(function), (const uint64_t[WORDS]){__VA_ARGS__}))

static void deepen(size_t found) {
    if (found > deepest) deepest = found;
}

static void print(const char *operation) {
    printf("%s\t%zu\n", operation, deepest);
    deepest = 0;
}

static int16_t weights[64], frame[64];
static int64_t residues[64], scores[16];
static uint8_t text[HIGHVANE_TRANSCRIPT_MAX];
static highvane_report report;
static highvane_scaled scaled;

/* the highest setting that the design takes at the width */
static uint64_t setting_of(uint64_t design, uint64_t width) {
    return design < HIGHVANE_STAGED ? 0 : design == HIGHVANE_STAGED ? width : width - 1;
}

int main(void) {
    static const uint8_t records[][9] = {
        {1, 1, 0, 0x00, 0x80, 0xFF, 0x7F},                   /* -2^30, Mitchell; so too the other designs */
        {1, 2, 0, 0x00, 0x80, 0xFF, 0x7F},
        {1, 3, 16, 0x00, 0x80, 0xFF, 0x7F},
        {1, 4, 15, 0x00, 0x80, 0xFF, 0x7F},
        {1, 5, 15, 0x00, 0x83, 0x00, 0x7D},                  /* -32,000 by 32,000, of which something is left to a second stage */
        {2, 0xFF, 0xFF, 0x7F, 0xFF, 0x00, 0x00, 0x80, 0x3F}, /* the lowest binary32 times 1: ten digits */
        {2, 0x00, 0x00, 0x80, 0x7F, 0x00, 0x00, 0x80, 0x3F}, /* infinite: refused */
        {3, 0xFF, 0xFF},
        {7},
    };
    static const size_t lengths[] = {7, 7, 7, 7, 7, 9, 9, 3, 1};
    static uint8_t too_long[HIGHVANE_INPUT_MAX + 1];
    seeded_row("ones", weights, frame, 64);
    /* of these pairs something is left to the second stage of design 5, on either side of its carry */
    weights[1] = frame[1] = 5;
    weights[2] = frame[2] = 13;
    for (uint64_t design = 0; design <= 6; design++) {
        uint64_t setting = setting_of(design, 16);
        TRY(highvane_score_row, (uint64_t)&report, design, setting, (uint64_t)weights, 64, (uint64_t)frame, 64,
            (uint64_t)residues, 64);
    }
    print("highvane_score_row");
#define ROW_BY_ITSELF(row, design)                                                                                              \
    TRY(row, (uint64_t)&report, setting_of(design, 16), (uint64_t)weights, 64, (uint64_t)frame, 64, (uint64_t)residues, 64);      \
    TRY(row, (uint64_t)&report, setting_of(design, 16), (uint64_t)weights, 3, (uint64_t)frame, 3, (uint64_t)residues, 3);         \
    print(#row)
    ROW_BY_ITSELF(highvane_score_row_mitchell, HIGHVANE_MITCHELL);
    ROW_BY_ITSELF(highvane_score_row_nearest, HIGHVANE_NEAREST_POWER);
    ROW_BY_ITSELF(highvane_score_row_staged, HIGHVANE_STAGED);
    ROW_BY_ITSELF(highvane_score_row_truncated, HIGHVANE_TRUNCATED);
    ROW_BY_ITSELF(highvane_score_row_twice_truncated, HIGHVANE_TWICE_TRUNCATED);
    /* sixteen rows of four columns, and one row of 64; the answer comes in registers */
    for (uint64_t design = 0; design <= 6; design++) {
        TRY(highvane_score_layer, design, setting_of(design, 16), (uint64_t)weights, 64, 4, (uint64_t)frame, 4, (uint64_t)scores, 16);
        TRY(highvane_score_layer, design, setting_of(design, 16), (uint64_t)weights, 64, 64, (uint64_t)frame, 64, (uint64_t)scores, 16);
    }
    print("highvane_score_layer");
    for (uint64_t design = 0; design <= 6; design++)
        TRY(highvane_product_unsigned, design, 32, setting_of(design, 32), UINT32_MAX, UINT32_MAX);
    TRY(highvane_product_unsigned, HIGHVANE_TWICE_TRUNCATED, 32, 31, 3000000000, 3000000000);
    print("highvane_product_unsigned");
    for (uint64_t design = 0; design <= 6; design++)
        TRY(highvane_product_signed, design, 32, setting_of(design, 32), (uint64_t)-INT32_MAX, INT32_MAX);
    TRY(highvane_product_signed, HIGHVANE_TWICE_TRUNCATED, 32, 31, (uint64_t)-2000000000, 2000000000);
    print("highvane_product_signed");
    TRY(highvane_row_refusal, (uint64_t)weights, 64, 8, 3);
    TRY(highvane_row_refusal, (uint64_t)weights, 64, 0, 3);
    print("highvane_row_refusal");
    TRY(highvane_scale, (uint64_t)&scaled, (uint64_t)-20, 39, 3);
    TRY(highvane_scale, (uint64_t)&scaled, (uint64_t)-20, 39, 41);
    print("highvane_scale");
    TRY(highvane_single_product, 0x3FA00000, 0x3FA00000);
    TRY(highvane_single_product, 0x7F800000, 0x3FA00000);
    print("highvane_single_product");
    TRY(highvane_table_product, 255, 255);
    TRY(highvane_table_product, 0, 255);
    print("highvane_table_product");
    for (size_t i = 0; i < sizeof records / sizeof *records; i++)
        TRY(highvane_transcript, (uint64_t)records[i], lengths[i], (uint64_t)text);
    TRY(highvane_transcript, (uint64_t)too_long, sizeof too_long, (uint64_t)text);
    print("highvane_transcript");
    return 0;
}
