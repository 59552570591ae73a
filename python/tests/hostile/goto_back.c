int f(int n, int m)
{
    int i = 0, s = 0, k = 0;
again:
    while (i < n) { s += 2; i++; }
    if (k++ < 3) { i = 0; goto again; }
    return s;
}
