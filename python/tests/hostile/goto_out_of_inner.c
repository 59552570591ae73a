int f(int n, int m)
{
    int i = 0, s = 0, t = 0;
    while (i < n) {
        int j = 0;
        while (j < m) { j++; s++; if (s % 5 == 0) goto next; }
        t += 1;
next:
        i++;
    }
    return s;
}
