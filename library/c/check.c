/* check < FILE prints the answer, line and column of a file of up to 64 MB. */
#include "clieop.h"

#include <stdio.h>

static uint8_t file[64 << 20];

int main(void)
{
    size_t length = fread(file, 1, sizeof file, stdin);
    if (ferror(stdin) || !feof(stdin)) {
        fputs("check: cannot read the whole file\n", stderr);
        return 2;
    }
    uint64_t r = clieop_check(file, length);
    printf("answer=%u\nline=%llu\ncolumn=%u\n", CLIEOP_ANSWER(r), (unsigned long long)CLIEOP_LINE(r), CLIEOP_COLUMN(r));
    return CLIEOP_ANSWER(r) != 0;
}
