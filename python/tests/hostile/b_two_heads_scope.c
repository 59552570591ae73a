int f(int n, int m)
{
    int i = 0, s = 0;
    while (i < n) {
        int t = 0, w = 5;
        while (t < m) { t++; s += 2; w += 2; }
        s -= 2 * t;
        { int t = 9; while (t > 0) { t--; s++; w--; } s -= 9; }
        i++;
    }
    return s;
}
