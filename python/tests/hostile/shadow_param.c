int n_;
int f(int n, int m)
{
    int s = 0;
    n = n + 2;
    {
        int n = 5;
        while (n < 20) { s += 3; n++; }
    }
    while (n > 0) { s += 1; n--; }
    return s;
}
