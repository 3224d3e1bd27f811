/* Reads document 01's worked example, translates it and runs both forms, each from a store of zeros. */
#include "clight.h"

#include <stdio.h>
#include <string.h>

static const char *const endings[] = {
    [CLIGHT_ENDED] = "ended", [CLIGHT_SPENT] = "spent", [CLIGHT_OVERFLOW] = "overflow", [CLIGHT_ZERO] = "zero", [CLIGHT_INDEX] = "index", [CLIGHT_GUARD] = "guard"};

static const char text[] = "1\t3\n"
                           "42\t1\t0\t0\t0\t0\n"
                           "41\t2\t0\t0\t0\t5\n"
                           "21\t3\t4\t0\t0\t0\n"
                           "2\t0\t0\t0\t0\t0\n"
                           "1\t2\t0\t0\t0\t0\n"
                           "41\t6\t0\t0\t0\t0\n"
                           "21\t7\t11\t0\t0\t0\n"
                           "3\t0\t8\t0\t0\t0\n"
                           "23\t9\t10\t0\t0\t0\n"
                           "2\t0\t0\t0\t0\t0\n"
                           "1\t1\t0\t0\t0\t0\n"
                           "29\t12\t0\t0\t0\t0\n"
                           "2\t0\t0\t0\t0\t0\n";

enum { SOURCE_ROWS = 13, BUDGET = 100000, STORE_WORDS = 4 };

static int refused(clight_answer answer) {
    if (answer.cause != CLIGHT_DONE)
        printf("refused %u %zu\n", (unsigned)answer.cause, answer.first);
    return answer.cause != CLIGHT_DONE;
}

static void print_store(const int32_t *store) {
    for (int i = 0; i < STORE_WORDS; i++)
        printf(" %d", store[i]);
    printf("\n");
}

int main(void) {
    int32_t header[CLIGHT_SOURCE_HEADER_WORDS];
    int32_t rows[CLIGHT_ROW_WORDS * SOURCE_ROWS];
    clight_answer source =
        clight_read_source((const uint8_t *)text, strlen(text), header, CLIGHT_SOURCE_HEADER_WORDS, rows, sizeof rows / sizeof *rows);
    if (refused(source))
        return 1;

    int32_t store[STORE_WORDS] = {0};
    clight_answer run = clight_run(header, source.first, rows, source.second, store, STORE_WORDS, BUDGET);
    if (refused(run))
        return 1;
    printf("source %s %zu", endings[run.first], run.second);
    print_store(store);

    int32_t kernel_header[CLIGHT_KERNEL_HEADER_WORDS];
    static int32_t kernel_rows[CLIGHT_ROW_WORDS * CLIGHT_KERNEL_ROWS(SOURCE_ROWS)];
    clight_answer kernel = clight_translate(header, source.first, rows, source.second, kernel_header, CLIGHT_KERNEL_HEADER_WORDS,
                                            kernel_rows, sizeof kernel_rows / sizeof *kernel_rows);
    if (refused(kernel))
        return 1;

    /* S words, D declared words (none here) and T temporaries, T at most 4 a source row. */
    int32_t kernel_store[STORE_WORDS + 4 * SOURCE_ROWS] = {0};
    run = clight_kernel_run(kernel_header, kernel.first, kernel_rows, kernel.second, kernel_store,
                            STORE_WORDS + (size_t)(kernel_header[1] + kernel_header[2]), BUDGET);
    if (refused(run))
        return 1;
    printf("kernel %s", endings[run.first]);
    print_store(kernel_store);
    return 0;
}
