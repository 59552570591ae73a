int f(int n, int m)
{
    int s = 0, i;
    for (i = 0; i < n; i += 2) { if (m > i) i--; s++; }
    return s;
}
