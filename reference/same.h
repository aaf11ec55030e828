/* What the programs that hold the headers to the libraries share: two numbers that should be one. */
#include <stdio.h>

static int same(const char *what, unsigned long long stated, unsigned long long told)
{
    if (stated != told)
        printf("%s: stated %llu, by the library %llu\n", what, stated, told);
    return stated == told;
}
