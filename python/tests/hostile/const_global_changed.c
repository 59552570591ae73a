static const int k = 3;
int f(int n, int m)
{
    int i = 0, s = 0;
    while (i < n) { s += k; i++; }
    return s;
}
