enum { K = 3 };
int f(int n, int m)
{
    typedef enum { K = 5 } T;
    int i = 0, s = 0;
    while (i < n) { s += K; i++; }
    return s;
}
