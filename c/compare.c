/* Answers cases of the C calls: a name and its figures on each line of input, a number on each line of output. */
#include <errno.h>
#include <inttypes.h>
#include <stdio.h>
#include <stdlib.h>
#include <string.h>

#include "runtsigo.h"

/* Reads just so many figures, up to the end of the line. */
static int figures(char *at, int count, int64_t *into)
{
    for (int i = 0; i < count; i++) {
        char *end;
        if (*at != ' ')
            return 0;
        errno = 0;
        into[i] = strtoll(at, &end, 10);
        if (end == at || errno != 0)
            return 0;
        at = end;
    }
    return strcmp(at, "\n") == 0;
}

static int answer(char *line, int64_t *result)
{
    size_t length = strcspn(line, " \n");
    char *rest = line + length;
    int64_t f[4];

#define IS(name) (length == strlen(name) && strncmp(line, name, length) == 0)
    if (IS("fixed") && figures(rest, 3, f))
        *result = runtsigo_fixed(f[0], f[1], f[2]);
    else if (IS("variable") && figures(rest, 3, f))
        *result = runtsigo_variable(f[0], f[1], f[2]);
    else if (IS("dollars") && figures(rest, 4, f))
        *result = runtsigo_dollars(f[0], f[1], f[2], f[3]);
    else if (IS("alignment") && figures(rest, 3, f))
        *result = runtsigo_alignment(f[0], f[1], f[2]);
    else
        return 0;
#undef IS
    return 1;
}

int main(void)
{
    char line[256];
    unsigned long at = 0;
    int64_t result;

    while (fgets(line, sizeof line, stdin) != NULL) {
        at++;
        if (!answer(line, &result)) {
            fprintf(stderr, "compare: line %lu is no case\n", at);
            return 1;
        }
        printf("%" PRId64 "\n", result);
    }
    if (ferror(stdin) || fflush(stdout) != 0 || ferror(stdout)) {
        fprintf(stderr, "compare: cannot read or write\n");
        return 1;
    }
    return 0;
}
