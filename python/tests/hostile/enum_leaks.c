enum { K = 3 };
int f(int n, int m)
{
    int i = 0, s = 0;
    { enum { K = 5 }; s += K - 5; }
    while (i < n) { s += K; i++; }
    return s;
}
