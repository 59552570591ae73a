int g(int x) { return x; }
int f(int n, int m)
{
    int i = 0, s = 0;
    while (i < n) {
        s = i++ + (g(s), 2);
    }
    return s;
}
