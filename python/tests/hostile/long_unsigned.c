int f(int n, int m)
{
    long s = -5; unsigned u = 2; int i = 0;
    while (i < n) { s = s + u; if (s < u) s += 1; i++; }
    return s;
}
