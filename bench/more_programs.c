/* The programs of sort.cmm and squares.cmm in C; the other eleven stand in programs.c. */
typedef long L;
extern L arr[];
void rnd(L n, L *p);
void qs(L lo, L hi, L *a);

L m_sort(L n) {
    rnd(n, arr);
    qs(0, n - 1, arr);
    return arr[n / 2];
}

L m_squares(L n) {
    L i = 0, s = 0;
    while (i < n) {
        s += i * i;
        i++;
    }
    return s;
}
