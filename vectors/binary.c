/* Answers binary operations by the machine's own float: 24 binary digits, ties to even.
 *
 * A line of input is the name of an operation and its operands as pairs of a significand and an exponent:
 *     multiply s q s q  |  add s q s q  |  fused s q s q s q
 * A line of output is the answer as such a pair, with 2^23 <= |s| < 2^24, or 0 0.
 * An operand or an answer outside the range of normal floats ends the program with status 1, since float rounds to
 * fewer digits there.
 */
#include <float.h>
#include <math.h>
#include <stdio.h>
#include <stdlib.h>
#include <string.h>

static void stop(const char *why)
{
    fprintf(stderr, "binary: %s\n", why);
    exit(1);
}

static float number(void)
{
    long s;
    int q;
    if (scanf("%ld %d", &s, &q) != 2)
        stop("an operand is missing");
    float x = ldexpf((float)s, q);
    if ((long)(float)s != s || (s != 0 && !isnormal(x)))
        stop("an operand is no normal float");
    return x;
}

static void answer(float x)
{
    int q;
    if (x == 0) {
        puts("0 0");
        return;
    }
    if (!isnormal(x))
        stop("an answer is no normal float");
    float fraction = frexpf(x, &q);
    printf("%ld %d\n", (long)ldexpf(fraction, FLT_MANT_DIG), q - FLT_MANT_DIG);
}

int main(void)
{
    char operation[16];
    while (scanf("%15s", operation) == 1) {
        float x = number();
        float y = number();
        if (strcmp(operation, "multiply") == 0)
            answer(x * y);
        else if (strcmp(operation, "add") == 0)
            answer(x + y);
        else if (strcmp(operation, "fused") == 0)
            answer(fmaf(x, y, number()));
        else
            stop("no such operation");
    }
    return 0;
}
