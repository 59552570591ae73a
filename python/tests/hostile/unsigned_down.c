int f(int n, int m)
{
    unsigned u = 3; int i = 0;
    while (i < n) { u -= 2; i++; }
    return u;
}
