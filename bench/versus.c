/* versus before|after FILE OTHER ROUNDS: the whole-file check of the earlier or the later archive on FILE and of the later one
 * on OTHER, which may be the same file, one after the other in each round. It prints the second time as a part of the first:
 * median, lowest and highest tenth. `versus none|before|after FILE` checks it by neither or one of them once, for counting. */
#include <stdint.h>
#include <stdio.h>
#include <stdlib.h>
#include <string.h>
#include <time.h>

typedef uint64_t checks(const uint8_t *file, size_t length);
checks before_check, after_check;

struct file {
    uint8_t *bytes;
    size_t length;
};

static struct file read_file(const char *name) {
    FILE *from = fopen(name, "rb");
    if (from == NULL || fseek(from, 0, SEEK_END) != 0) exit(2);
    struct file file = {.length = (size_t)ftell(from)};
    rewind(from);
    file.bytes = malloc(file.length);
    if (file.bytes == NULL || fread(file.bytes, 1, file.length, from) != file.length) exit(2);
    fclose(from);
    return file;
}

static double seconds(checks *check, struct file file) {
    struct timespec began, ended;
    clock_gettime(CLOCK_MONOTONIC, &began);
    if ((check(file.bytes, file.length) & 255) != 0) exit(1);
    clock_gettime(CLOCK_MONOTONIC, &ended);
    return (double)(ended.tv_sec - began.tv_sec) + 1e-9 * (double)(ended.tv_nsec - began.tv_nsec);
}

static int rising(const void *a, const void *b) {
    double x = *(const double *)a, y = *(const double *)b;
    return (x > y) - (x < y);
}

int main(int count, char **words) {
    if (count != 3 && count != 5) return 2;
    struct file file = read_file(words[2]);
    if (strcmp(words[1], "none") == 0) return 0;
    checks *check = strcmp(words[1], "before") == 0 ? before_check : after_check;
    if (count == 3) return seconds(check, file) < 0;
    struct file other = strcmp(words[2], words[3]) == 0 ? file : read_file(words[3]);
    int rounds = atoi(words[4]);
    double *ratios = malloc((size_t)rounds * sizeof *ratios);
    if (rounds < 1 || ratios == NULL) return 2;
    for (int i = 0; i < rounds; i++) {
        double first = seconds(check, file);
        ratios[i] = seconds(after_check, other) / first;
    }
    qsort(ratios, (size_t)rounds, sizeof *ratios, rising);
    printf("%.3f %.3f %.3f\n", ratios[rounds / 2], ratios[rounds / 10], ratios[rounds - 1 - rounds / 10]);
    return 0;
}
