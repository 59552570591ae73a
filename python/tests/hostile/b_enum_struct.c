struct { enum { P = 3, Q } x; } glob;
int f(int n, int m)
{
    int i = 0, s = 0;
    while (i < n) { s += Q; i++; }
    return s;
}
