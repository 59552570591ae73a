int f(int n, int m)
{
    int i = 0, s = 0;
    while (i < n) { __typeof__(i) t = 3; s += t; i++; }
    return s;
}
