/* programs A B FILE: runs both programs on the file as standard input, in turns; prints the least and the middle time of a whole run, and fails where their
   texts differ. */
#include <fcntl.h>
#include <stdio.h>
#include <stdlib.h>
#include <string.h>
#include <sys/wait.h>
#include <time.h>
#include <unistd.h>

enum { RUNS = 400, TEXT = 4096 };

static double now(void) {
    struct timespec t;
    clock_gettime(CLOCK_MONOTONIC, &t);
    return (double)t.tv_sec + (double)t.tv_nsec * 1e-9;
}

/* a whole run in seconds; its output in `text` */
static double run(const char *program, const char *file, char *text) {
    int ends[2];
    double from = now();
    if (pipe(ends)) exit(1);
    pid_t child = fork();
    if (child < 0) exit(1);
    if (child == 0) {
        int in = open(file, O_RDONLY);
        if (in < 0 || dup2(in, 0) < 0 || dup2(ends[1], 1) < 0) _exit(1);
        close(ends[0]);
        close(ends[1]);
        execl(program, program, (char *)0);
        _exit(1);
    }
    close(ends[1]);
    size_t n = 0;
    for (ssize_t got; (got = read(ends[0], text + n, TEXT - 1 - n)) > 0;) n += (size_t)got;
    text[n] = 0;
    close(ends[0]);
    int status;
    if (waitpid(child, &status, 0) < 0 || status) exit(1);
    return now() - from;
}

static int smaller(const void *a, const void *b) {
    double x = *(const double *)a, y = *(const double *)b;
    return (x > y) - (x < y);
}

int main(int count, char **words) {
    static double times[2][RUNS];
    char text[2][TEXT];
    if (count != 4) return 1;
    for (int r = 0; r < RUNS; r++)
        for (int p = 0; p < 2; p++) times[p][r] = run(words[1 + p], words[3], text[p]);
    for (int p = 0; p < 2; p++) qsort(times[p], RUNS, sizeof(double), smaller);
    int differ = strcmp(text[0], text[1]) != 0 || !text[0][0];
    printf("readpage from start to end on %s, microseconds a run: store, least and middle | C, least and middle, ratio of the middles\n", words[3]);
    printf("%-14s %7.0f %7.0f | %7.0f %7.0f %.2f%s\n", "readpage", times[0][0] * 1e6, times[0][RUNS / 2] * 1e6, times[1][0] * 1e6, times[1][RUNS / 2] * 1e6,
           times[0][RUNS / 2] / times[1][RUNS / 2], differ ? "  TEXTS DIFFER" : "");
    return differ;
}
