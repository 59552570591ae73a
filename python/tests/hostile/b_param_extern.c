extern int q; int q = 3;
int f(int n, int m)
{
    extern int q;
    int i = 0, s = 0;
    q = 4;
    while (i < n) { s += q; i++; q += 1; }
    return s;
}
