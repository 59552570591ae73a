int f(int n, int m)
{
    int i = 0, s = 0;
    if (m > 3) goto in;
    i = 0; s = 0;
    goto loop;
in:
    s = 7;
loop:
    while (i < n) { s += 2; i++; }
    return s;
}
