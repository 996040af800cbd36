/* A sample statement: some coupons of a long side, in centavos. What it pays is negative. */
#include <inttypes.h>
#include <stdio.h>

#include "runtsigo.h"

enum { PAYS = -1, RECEIVES = 1 };

/* Prints a line; answers 1 where the call was refused. */
static int show(const char *label, int sign, int64_t centavos)
{
    if (centavos == RUNTSIGO_REFUSED) {
        fprintf(stderr, "statement: refused: %s\n", label);
        return 1;
    }
    printf("%-60s %14" PRId64 "\n", label, sign * centavos);
    return 0;
}

int main(void)
{
    int refused = 0;

    refused |= show("fixed, 1 million, 1 point, 180 days", PAYS, runtsigo_fixed(1, 1, 180));
    refused |= show("fixed, 1 million, 1 point, 179 days", PAYS, runtsigo_fixed(1, 1, 179));
    refused |= show("fixed, 1 million, -1 point, 180 days", PAYS, runtsigo_fixed(1, -1, 180));
    refused |= show("variable, 10000 million, 9001688 points, 4 days", RECEIVES, runtsigo_variable(10000, 9001688, 4));
    refused |= show("dollars, 1000 thousand, 5000000 points, 90 days, TRM 391245", PAYS,
                    runtsigo_dollars(1000, 5000000, 90, 391245));
    /* the alignment has its own sign */
    refused |= show("alignment, 10000000000 centavos, 9000 mills, 3 days", 1, runtsigo_alignment(10000000000, 9000, 3));
    if (fflush(stdout) != 0 || ferror(stdout)) {
        fprintf(stderr, "statement: cannot write\n");
        return 1;
    }
    return refused;
}
