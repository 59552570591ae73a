int f(int n, int m)
{
    int i = 0, t, s = 0;
    while (i < n) { t = i; s += 2; i++; }
    while (i > 0) { s -= 2; i--; t = 2; }
    return s;
}
