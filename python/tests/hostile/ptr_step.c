int f(int n, int m)
{
    char b[40], *p = b; int i = 0, s = 0;
    if (n > 30) n = 30;
    while (i < n) { *p++ = s++; i++; }
    return s;
}
