int f(int n, int m)
{
    int i = 0, s = 0;
    while (i < n) { int t; if (i == 0) t = 5; else t = 6; s += t; i++; }
    return s;
}
