enum { K = 3 };
int f(int n, int m)
{
    int i = 0, s = 0;
    m = (enum { K = 4 }) 0;
    while (i < n) { s += K; i++; }
    return s;
}
