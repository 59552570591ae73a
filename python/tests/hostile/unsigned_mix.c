int f(int n, int m)
{
    unsigned u = 1; int i = 0; long s = 0;
    while (i < n) { s += u - 2; i++; }
    return s;
}
