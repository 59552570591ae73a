int a[4]; int g;
int f(int n, int m)
{
    int i = 0; g = 0;
    while (i < n) { a[i % 4] = i; g += 2; i++; }
    return g;
}
