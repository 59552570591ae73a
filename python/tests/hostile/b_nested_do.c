int f(int n, int m)
{
    int i = 0, j, s = 0, t = 0;
    do { j = 0; do { s++; if (s % 7 == 0) break; t++; continue; } while (++j < m); s -= t; t = 0; } while (++i < n);
    return s;
}
