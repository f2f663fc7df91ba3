/* Calls each function of the library from C, and prints what it answers. */
#include "nekhvozu.h"

#include <stdio.h>
#include <string.h>

_Static_assert(sizeof(nekhvozu_figure) == 8, "two words");
_Static_assert(sizeof(nekhvozu_answer) == 12, "a status in a word of its own, and two words");
_Static_assert(sizeof(nekhvozu_end) == 3 * sizeof(size_t), "two sizes, and a status in a word of its own");

static nekhvozu_figure figure(int32_t s, int32_t q)
{
    nekhvozu_figure pair = {s, q};
    return pair;
}

static void show(const char *call, nekhvozu_answer answer)
{
    if (answer.status == NEKHVOZU_OK)
        printf("%s: %d %d\n", call, answer.figure.s, answer.figure.q);
    else
        printf("%s: refused, %d\n", call, answer.status);
}

static void show_batch(const char *call, uint8_t arrangement, const uint8_t *text, size_t text_size, size_t report_size)
{
    uint8_t report[256];
    memset(report, '.', sizeof report);
    nekhvozu_end end = nekhvozu_batch(arrangement, text, text_size, report, report_size);
    printf("%s: rows %zu, bytes %zu, status %d\n", call, end.rows, end.bytes, end.status);
    fwrite(report, 1, end.bytes, stdout);
    for (size_t i = end.bytes; i < sizeof report; i++)
        if (report[i] != '.')
            printf("byte %zu of the report was changed\n", i);
}

static void show_text(const char *call, uint8_t arrangement, const char *text, size_t report_size)
{
    show_batch(call, arrangement, (const uint8_t *)text, strlen(text), report_size);
}

int main(void)
{
    static uint8_t long_text[65537];
    memset(long_text, 'x', sizeof long_text);
    nekhvozu_figure zero = figure(0, 0), one = figure(8388608, -23);
    nekhvozu_figure first = figure(8388609, -23), second = figure(8388610, -23);
    nekhvozu_figure large = figure(16777215, 0), near = figure(8388610, -2), nearer = figure(8388609, -2);

    show("multiply, binary", nekhvozu_multiply(NEKHVOZU_BINARY, figure(12582912, -23), first));
    show("multiply, decimal", nekhvozu_multiply(NEKHVOZU_DECIMAL, figure(1500000, -6), figure(1000001, -6)));
    show("multiply past the range", nekhvozu_multiply(NEKHVOZU_BINARY, figure(8388608, 1000), figure(8388608, 978)));
    show("multiply what is no figure", nekhvozu_multiply(NEKHVOZU_BINARY, one, figure(1000000, -6)));
    show("add, binary", nekhvozu_add(NEKHVOZU_BINARY, large, figure(8388608, -24)));
    show("add, decimal", nekhvozu_add(NEKHVOZU_DECIMAL, figure(1000000, 0), figure(-1000000, 0)));
    show("fused, binary", nekhvozu_fused(NEKHVOZU_BINARY, first, first, figure(-8388610, -23)));
    show("fused, symmetric", nekhvozu_fused(NEKHVOZU_SYMMETRIC, second, one, figure(-8388610, -23)));
    show("sum, binary", nekhvozu_sum(NEKHVOZU_BINARY, large, near, large, nearer));
    show("sum, symmetric", nekhvozu_sum(NEKHVOZU_SYMMETRIC, large, near, large, nearer));
    show("sum of what is no figure", nekhvozu_sum(NEKHVOZU_BINARY, zero, figure(0, 1), figure(8388608, 201), zero));
    show("sum past the range", nekhvozu_sum(NEKHVOZU_BINARY, zero, one, figure(8388608, 201), figure(0, 1)));
    show("sum by no arrangement", nekhvozu_sum(3, zero, zero, zero, zero));

    const char *heat =
        "sum 8388609p-23 8388609p-23 0p0 0p0\n"
        "sum 8388610p-23 8388608p-23 0p0 0p0\n"
        "det 8388609p-23 8388608p-23 8388610p-23 8388609p-23\n"
        "det 8388610p-23 8388609p-23 8388609p-23 8388608p-23\n";
    show_text("batch, binary", NEKHVOZU_BINARY, heat, 256);
    show_text("batch, decimal", NEKHVOZU_DECIMAL, "read 0\nsum 0p0 0p0 0p0 0p0", 256);
    show_text("batch, symmetric", NEKHVOZU_SYMMETRIC, "sum 16777215p0 8388610p-2 16777215p0 8388609p-2\n", 64);
    show_text("batch without a row", NEKHVOZU_BINARY, "", 0);
    show_text("batch with little room", NEKHVOZU_BINARY, "restart 0\nrestart 0\n", 67);
    show_batch("batch of a long text", NEKHVOZU_BINARY, long_text, sizeof long_text, 256);
    show_text("batch by no arrangement", 255, "read 0\n", 256);
    return 0;
}
