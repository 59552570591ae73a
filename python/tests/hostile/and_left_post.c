int f(int n, int m)
{
    int x = 1, y = 0, i = 0;
    while (x++ < n && x % 2 == 0) {
        y += (x - 1) / 2;
        x++;
        i++;
    }
    return y;
}
