/* Runs a program of programs.c as the runtime in examples/runtime runs an image: from its start, several times.
 * usage: harness PROGRAM RUNS ARGUMENT...; prints what it returns, and on standard error the seconds of the best run. */
#include <stdio.h>
#include <stdlib.h>
#include <string.h>
#include <time.h>

typedef long L;

/* programs.c takes its blocks off s10 and compares it with the limit word at s11, as compiled code does. Here the area is so
 * large that the limit is never met: nothing is collected. */
register L *allocation_pointer asm("s10");
register L *domain asm("s11");

extern L arr[20000], brr[20000];
L fib(L), tak(L, L, L), m_qs(L), m_sieve(L), m_str(L), m_rec(L), m_queens(L), m_mat(L), m_list(L), m_tree(L), m_misc(L);
L m_sort(L), m_squares(L);

enum { AREA = 64 << 20 };

static L call(const char *name, const L *a) {
    if (strcmp(name, "fib") == 0) return fib(a[0]);
    if (strcmp(name, "tak") == 0) return tak(a[0], a[1], a[2]);
    if (strcmp(name, "sort") == 0) return m_sort(a[0]);
    if (strcmp(name, "squares") == 0) return m_squares(a[0]);
    if (strcmp(name, "qs") == 0) return m_qs(a[0]);
    if (strcmp(name, "sieve") == 0) return m_sieve(a[0]);
    if (strcmp(name, "str") == 0) return m_str(a[0]);
    if (strcmp(name, "rec") == 0) return m_rec(a[0]);
    if (strcmp(name, "queens") == 0) return m_queens(a[0]);
    if (strcmp(name, "mat") == 0) return m_mat(a[0]);
    if (strcmp(name, "list") == 0) return m_list(a[0]);
    if (strcmp(name, "tree") == 0) return m_tree(a[0]);
    if (strcmp(name, "misc") == 0) return m_misc(a[0]);
    fprintf(stderr, "no program %s\n", name);
    exit(1);
}

static double now(void) {
    struct timespec time;
    clock_gettime(CLOCK_MONOTONIC, &time);
    return (double)time.tv_sec + 1e-9 * (double)time.tv_nsec;
}

int main(int count, char **words) {
    L arguments[3] = {0}, returned = 0;
    if (count < 4 || count > 6) return 1;
    for (int i = 3; i < count; i++) arguments[i - 3] = atol(words[i]);
    char *area = malloc(AREA);
    L limit = (L)area;
    double best = 1e9;
    domain = &limit;
    for (long i = atol(words[2]); i > 0; i--) {
        memset(arr, 0, sizeof arr);
        memset(brr, 0, sizeof brr);
        allocation_pointer = (L *)(area + AREA);
        double start = now();
        returned = call(words[1], arguments);
        double seconds = now() - start;
        if (seconds < best) best = seconds;
    }
    printf("returned %ld\n", returned);
    fprintf(stderr, "%.6f seconds\n", best);
    return 0;
}
