int f(int n, int m)
{
    int x = n, y = 0, t = 0;
    while ((t = x) && t > 0) { x = t - 1; y += t; }
    return y;
}
