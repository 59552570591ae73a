int f(int n, int m)
{
    int s = 0;
    for (int i = 0, j = n; i < j; i++, j--) s += j + i;
    return s;
}
