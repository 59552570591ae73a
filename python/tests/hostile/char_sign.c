int f(int n, int m)
{
    char c = 0; int i = 0;
    while (i < n) { if (c < 127) c++; i++; }
    return c;
}
