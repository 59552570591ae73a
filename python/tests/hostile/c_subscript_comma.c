int a[4];
int f(int n, int m)
{
    int i = 0, s = 0, x = 3;
    while (i < n) { s += i++ + (a[1], 5); }
    return s;
}
