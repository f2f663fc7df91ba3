/* Nekhvozu for C: the functions that crates/nekhvozu exports. docs/embedding.md says what each answers. */
#ifndef NEKHVOZU_H
#define NEKHVOZU_H

#include <stddef.h>
#include <stdint.h>

#ifdef __cplusplus
extern "C" {
#endif

/* Which kind, and which method for ab + cd. */
enum {
    NEKHVOZU_BINARY = 0,    /* 24 binary digits, Kahan's method */
    NEKHVOZU_DECIMAL = 1,   /* seven decimal digits, Kahan's method */
    NEKHVOZU_SYMMETRIC = 2, /* 24 binary digits, the symmetric method */
};

/* The status of an answer: 0 where it has a figure, and otherwise why there is none. */
enum {
    NEKHVOZU_OK = 0,
    NEKHVOZU_NO_FIGURE = 11,          /* an operand of an operation is no figure of the kind */
    NEKHVOZU_RESULT_RANGE = 12,       /* the rounded result's exponent is outside -2000..2000 */
    NEKHVOZU_OPERAND_NO_FIGURE = 21,  /* an operand of a sum of products is no figure of the kind */
    NEKHVOZU_OPERAND_RANGE = 22,      /* its exponent is outside -200..200 */
    NEKHVOZU_NO_ARRANGEMENT = 91,     /* the first argument is none of the three numbers above */
};

/* The status of a batch, beside 0 and 91. */
enum {
    NEKHVOZU_REPORT_FULL = 51,   /* fewer than 64 bytes of the report were free before a row */
    NEKHVOZU_TEXT_TOO_LONG = 61, /* the text has more than 65,536 bytes */
};

/* s times the radix to the power q. Any pair of words may be handed over. */
typedef struct {
    int32_t s;
    int32_t q;
} nekhvozu_figure;

/* The figure is 0 and 0 where the status is not 0. */
typedef struct {
    uint8_t status;
    nekhvozu_figure figure;
} nekhvozu_answer;

/* How many rows were run, how many bytes of the report they took, and how the batch ended. */
typedef struct {
    size_t rows;
    size_t bytes;
    uint8_t status;
} nekhvozu_end;

/* xy, x + y and xy + z, each rounded once */
nekhvozu_answer nekhvozu_multiply(uint8_t arrangement, nekhvozu_figure x, nekhvozu_figure y);
nekhvozu_answer nekhvozu_add(uint8_t arrangement, nekhvozu_figure x, nekhvozu_figure y);
nekhvozu_answer nekhvozu_fused(uint8_t arrangement, nekhvozu_figure x, nekhvozu_figure y, nekhvozu_figure z);

/* ab + cd by the arrangement's method */
nekhvozu_answer nekhvozu_sum(
    uint8_t arrangement, nekhvozu_figure a, nekhvozu_figure b, nekhvozu_figure c, nekhvozu_figure d);

/* Runs the batch of a text on a new console, and writes its lines at the front of the report. The text has text_size
 * bytes and the report report_size. No pointer is null, also where its size is 0, and the two do not overlap. */
nekhvozu_end nekhvozu_batch(
    uint8_t arrangement, const uint8_t *text, size_t text_size, uint8_t *report, size_t report_size);

#ifdef __cplusplus
}
#endif

#endif
