/* C-light loading rules and their kernel form: the proved library, for C.
 *
 * Link crates/exports/out/libexports.a (made by `rt lib` in crates/exports). x86-64 Linux; the library uses no heap, no global data and no
 * function of the C library but memset, and any number of threads may call it at once.
 *
 * A program is a header and rows of six words (kind, a, b, c, d, next), as document 01 lays them down. A slice is a pointer and a
 * length in elements. For every content of what it is lent each function gives its result or the one refusal that document 01's
 * table of causes names, and returns. What the caller owes, since nothing in C tests it:
 *
 *   - a pointer is aligned and leads to as many elements as its length says; it may be null where the length is 0;
 *   - a slice that the function may write (no const) shares no element with another slice of the same call;
 *   - CLIGHT_STACK bytes of stack; for clight_kernel_run and clight_dispatcher_run on a kernel program of more than CLIGHT_SHALLOW_ROWS
 *     rows that defines functions CLIGHT_KERNEL_STACK, since its calls may nest as deep as it has rows. What clight_translate makes
 *     needs CLIGHT_STACK alone. docs/PERFORMANCE.md has the figures: they are measured, and no theorem bounds a stack.
 *
 * Every answer has a cause. CLIGHT_DONE means that the function did its work; the other values say what it gave. Any other cause
 * is a refusal: first is its place (a row, a line of the text from 1, or 0), all else is 0, and nothing lent was changed. */
#ifndef CLIGHT_H
#define CLIGHT_H

#include <stddef.h>
#include <stdint.h>

#ifdef __cplusplus
extern "C" {
#endif

typedef struct clight_answer {
    uint32_t cause;
    size_t first;
    size_t second;
} clight_answer;

/* The answer of a preview: that of a run, and how many of the first S store words would differ. */
typedef struct clight_preview_answer {
    uint32_t cause;
    size_t first;
    size_t second;
    size_t differing;
} clight_preview_answer;

/* Causes: the numbers of documents 01 and 02. */
enum clight_cause {
    CLIGHT_DONE = 0,
    CLIGHT_HEADER = 1,            /* header outside its limits; place 0 */
    CLIGHT_ROW_COUNT = 2,         /* no rows, too many, or words not a multiple of 6 (flat list: of 5); place 0 */
    CLIGHT_KIND = 3,              /* kind not in the language, or unused field not 0; the row. Flat list: unknown operation; the line */
    CLIGHT_LINK = 4,              /* link not to a later row of the fitting sort, or a branch or body with next not 0; the row. Flat list: jump outside; the line */
    CLIGHT_LINKED_ONCE = 5,       /* row 0 not a lone block, or a row not linked exactly once; that row */
    CLIGHT_NUMBER = 6,            /* variable, array or label number outside; the row, of a flat list the line */
    CLIGHT_OUT_OF_PLACE = 7,      /* break, continue, case, default, declaration or return out of place; the row */
    CLIGHT_REPEATED_MARK = 8,     /* second equal case, or second default, in one switch; the later row */
    CLIGHT_DEPTH = 9,             /* depth over the limit; the row */
    CLIGHT_OUTPUT_TOO_SHORT = 10, /* output table or text shorter than its result needs; place 0 */
    CLIGHT_STORE = 11,            /* store not S+D (source), S (dispatcher) or S+D+T (kernel, flat list) words; place 0 */
    CLIGHT_KERNEL_FORM = 12,      /* statement not of kernel form; the statement's row */
    CLIGHT_LABEL = 13,            /* goto without its label ahead in its function, or label repeated; the row of the goto or the later label */
    CLIGHT_TEXT = 14,             /* text or page malformed; the line, from 1 */
    CLIGHT_SCRATCH = 15,          /* scratch shorter than S+D words; place 0 */
    CLIGHT_UNEQUAL_HEADERS = 16,  /* join of programs with unequal headers; place 0 */
    CLIGHT_JOINED_ROWS = 17,      /* joined rows over 2,048; place 0 */
    CLIGHT_NAMES_ITSELF = 18,     /* initial expression of a declaration names its own number; the declaration's row */
    CLIGHT_DECLARED_TWICE = 19,   /* number declared twice in one block, parameters among its items; the later declaration's row */
    CLIGHT_DECLARATIONS = 20,     /* a 65th declaration, parameters counted, in a join too; its row */
    CLIGHT_DEFINITION = 23,       /* definition of a function out of order or not at the front; its row */
    CLIGHT_CALL = 24,             /* call to no function, to its own or a higher one, or with the wrong number of arguments; its row */
    CLIGHT_FUNCTIONS = 25         /* flat list of a program with functions; the row of the first */
};

/* Endings of a run, in the first value of its answer: `endingNumber` (crates/words/specs/Answers.antt). */
enum clight_ending {
    CLIGHT_ENDED = 0,
    CLIGHT_SPENT = 1,
    CLIGHT_OVERFLOW = 2,
    CLIGHT_ZERO = 3,
    CLIGHT_INDEX = 4,
    CLIGHT_GUARD = 5 /* no guard true in a guarded if, or an abort of the kernel */
};

/* Limits. n source rows give at most CLIGHT_KERNEL_ROWS(n) kernel rows, and the kernel header has two words more. */
enum clight_limit {
    CLIGHT_ROW_WORDS = 6,
    CLIGHT_LINE_WORDS = 5,
    CLIGHT_SOURCE_HEADER_WORDS = 33,
    CLIGHT_KERNEL_HEADER_WORDS = 35,
    CLIGHT_SOURCE_ROWS_LIMIT = 2048,
    CLIGHT_KERNEL_ROWS_LIMIT = 40980,
    CLIGHT_STACK = 2097152,
    CLIGHT_KERNEL_STACK = 8388608,
    CLIGHT_SHALLOW_ROWS = 2048
};
#define CLIGHT_KERNEL_ROWS(source_rows) (20 * (source_rows) + 20)

/* The check of source programs. Done: the program is legal; first and second are 0. Causes 1 to 9, then 18 to 20, 23, 24. */
clight_answer clight_check(const int32_t *header, size_t header_words, const int32_t *rows, size_t row_words);

/* Runs a source program on the store, which has S+D words: variables, the arrays in order, then a word for each of the D declarations
 * and parameters (rows of kind 58), in the order of their rows. What these hold at the start does not matter. Done: first is the ending,
 * second the count of steps, at most budget, and the store is as the run left it. Causes 1 to 9, 18 to 20, 23, 24, then 11. */
clight_answer clight_run(const int32_t *header, size_t header_words, const int32_t *rows, size_t row_words, int32_t *store,
                         size_t store_words, uint32_t budget);

/* Tells what clight_run would do, and runs on a copy of the store. Done: first is the ending, second the count of steps, differing
 * how many of the first S store words would be unequal at the end. The first S+D words of the scratch are the store that the run would
 * leave; the rest of the scratch keeps its content. A spent or faulted run is told as it is. Causes 1 to 9, 18 to 20, 23, 24, then 11,
 * then 15. */
clight_preview_answer clight_preview(const int32_t *header, size_t header_words, const int32_t *rows, size_t row_words,
                                     const int32_t *store, size_t store_words, uint32_t budget, int32_t *scratch,
                                     size_t scratch_words);

/* Writes the kernel form of a source program. Done: first is the words of the kernel header, second those of the kernel rows; words
 * of both tables beyond these keep their content. The words written are a legal kernel program that shares the source's fate and
 * makes its writes, in order, also where neither run ends, whatever the declared words of both hold at the start. Causes 1 to 9, 18 to
 * 20, 23, 24, then 10. */
clight_answer clight_translate(const int32_t *header, size_t header_words, const int32_t *rows, size_t row_words,
                               int32_t *kernel_header, size_t kernel_header_words, int32_t *kernel_rows, size_t kernel_row_words);

/* Joins two source programs that have one header into one that runs the first, then the second: the new block, the definitions of
 * both, the second's with numbers behind the first's, the first's other rows, the second's. Done: first is the words of the joined rows,
 * second is 0; words of the table beyond these keep their content. The words written are a legal program under that header. It ends as
 * the first does where that faults, otherwise as the second does from the store the first left, and its count is the sum of those done
 * and one more; the declared words go by the joined rows. Causes 1 to 9, 18 to 20, 23 and 24 of the first, then of the second, then 16,
 * 17, 9 and 20 with the joined row, then 10. The two programs may be one. */
clight_answer clight_join(const int32_t *header, size_t header_words, const int32_t *rows, size_t row_words,
                          const int32_t *second_header, size_t second_header_words, const int32_t *second_rows,
                          size_t second_row_words, int32_t *out_rows, size_t out_row_words);

/* The check of kernel programs. Done: the program is legal; first and second are 0. Causes 1 to 7, 9, 12, 13, 19, 23, 24. */
clight_answer clight_kernel_check(const int32_t *header, size_t header_words, const int32_t *rows, size_t row_words);

/* Runs a kernel program on the store, which has S+D+T words: variables, the arrays in order, declared words, temporaries. Done: as
 * clight_run. Causes 1 to 7, 9, 12, 13, 19, 23, 24, then 11. */
clight_answer clight_kernel_run(const int32_t *header, size_t header_words, const int32_t *rows, size_t row_words, int32_t *store,
                                size_t store_words, uint32_t budget);

/* Runs a kernel program on the S words that a dispatcher sees: variables, then the arrays in order. The declared words and the
 * temporaries begin as zeros and are kept inside. Done: first is the ending, second is 0, and the words are as the run left them. Of a
 * translation, what the declared words and temporaries of clight_kernel_run begin with does not show here, at any budget. Causes 1 to 7,
 * 9, 12, 13, 19, 23, 24, then 11. */
clight_answer clight_dispatcher_run(const int32_t *header, size_t header_words, const int32_t *rows, size_t row_words, int32_t *words,
                                    size_t word_count, uint32_t budget);

/* Writes the flat list of a kernel program, lines of five words (docs/FLAT.md), which stands under the program's header. Done: first is its
 * words, five for each line, second is 0; words beyond these keep their content. There are fewer lines than kernel rows. The words written
 * are a legal list; with no limit on steps its run and the kernel run on equal stores both end or neither does, with equal ending and
 * words. The causes of the kernel check, then 25 for a program with functions, then 10. */
clight_answer clight_flatten(const int32_t *header, size_t header_words, const int32_t *rows, size_t row_words, int32_t *list,
                             size_t list_words);

/* Runs a flat list, lines of five words (docs/FLAT.md), with a kernel header, on the store, which has S+D+T words: variables, the arrays in
 * order, declared words, temporaries. Lines are numbered from 0. Done: first is the ending, second the count of lines, at most budget, and
 * the store is as the run left it. Causes 1, 2, 3, 4, 6, then 11. */
clight_answer clight_flat_run(const int32_t *header, size_t header_words, const int32_t *list, size_t list_words, int32_t *store,
                              size_t store_words, uint32_t budget);

/* Read a text into a header and rows. Done: first is the words of the header, second those of the rows; words of both tables
 * beyond these keep their content. Causes 14, then 1, 2, 10. The program that was read is not checked further. */
clight_answer clight_read_source(const uint8_t *text, size_t text_bytes, int32_t *header, size_t header_words, int32_t *rows,
                                 size_t row_words);
clight_answer clight_read_kernel(const uint8_t *text, size_t text_bytes, int32_t *header, size_t header_words, int32_t *rows,
                                 size_t row_words);

/* Write a header and rows as a text. Done: first is its bytes, second 0; bytes beyond these keep their content. Causes 1, 2, 10. */
clight_answer clight_write_source(const int32_t *header, size_t header_words, const int32_t *rows, size_t row_words, uint8_t *text,
                                  size_t text_bytes);
clight_answer clight_write_kernel(const int32_t *header, size_t header_words, const int32_t *rows, size_t row_words, uint8_t *text,
                                  size_t text_bytes);

/* Prints a kernel program as a page: lines of 80 columns and a newline, 81 bytes each (docs/PAGES.md). Done: first is its bytes, second 0;
   bytes beyond these keep their content. The causes of the kernel check, then 10. Read with the header, the page gives back the same rows, up
   to numbering. */
clight_answer clight_print_kernel(const int32_t *header, size_t header_words, const int32_t *rows, size_t row_words, uint8_t *page,
                                  size_t page_bytes);

/* Reads a page with the header of its program. Done: first is the words of its rows, numbered in the order of the page, second 0; words of the
   table beyond these keep their content. Causes 1, then 14 with the first wrong line, then 2, 10. The program that was read is not checked
   further. */
clight_answer clight_read_page(const int32_t *header, size_t header_words, const uint8_t *page, size_t page_bytes, int32_t *rows,
                               size_t row_words);

#ifdef __cplusplus
}
#endif

#endif
