int f(int n, int m)
{
    int i = 0, s = 0;
    while (i < n) {
        int t = i++ + (s++, 1);
        s += t;
    }
    return s;
}
