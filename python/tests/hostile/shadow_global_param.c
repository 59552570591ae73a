int x;
int g(int x, int k)
{
    int s = 0;
    x = x + 1;
    while (k > 0) { x += 2; k--; s++; }
    return x + s;
}
int f(int n, int m)
{
    x = m;
    return g(n, m);
}
