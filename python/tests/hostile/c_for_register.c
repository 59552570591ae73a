char buf[400];
int f(int n, int m)
{
    int i = 1, s = 0, k = 0;
    while (k < n) {
        for (register char *p = buf + i++; *p; p++) s += 0;
        s += i;
        k++;
    }
    return s;
}
