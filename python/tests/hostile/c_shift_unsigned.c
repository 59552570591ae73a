int f(int n, int m)
{
    unsigned u = 1; int i = 0, p = 1;
    if (n > 20) n = 20;
    while (i < n) { u <<= 1; p = p << 1; i++; }
    return p;
}
