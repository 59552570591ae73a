int f(int n, int m)
{
    unsigned u = 1; int i = 0, s = 0;
    while (i < n) {
        if (u-- == 0 || u == 0) u = 1;
        else u--;
        i++;
    }
    return s;
}
