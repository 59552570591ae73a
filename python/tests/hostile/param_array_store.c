int g;
int h(int a[], int n)
{
    int i = 0; g = 0;
    while (i < n) { a[0] = i; g += 2; i++; }
    return g;
}
int f(int n, int m)
{
    return h(&g, n);
}
