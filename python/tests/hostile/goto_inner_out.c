int f(int n, int m)
{
    int i = 0, s = 0, t = 0;
    while (i < n) {
        int j = 0;
        while (j < m) { j++; s++; t++; if (s == 50) goto done; }
        i++;
    }
done:
    return s;
}
