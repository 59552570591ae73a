int f(int n, int m)
{
    int i = 0, k = 0, s = 0;
    char buf[64]; if (n > 40) n = 40;
    while (k < n) {
        register char *p = buf + i++;
        *p = 0;
        s += 2;
        k++;
    }
    return s;
}
