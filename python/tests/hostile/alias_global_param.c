int g;
int h(int *p, int n)
{
    int i = 0;
    g = 0;
    while (i < n) { g += 2; *p = 9; i++; }
    return g;
}
int f(int n, int m)
{
    return h(&g, n);
}
