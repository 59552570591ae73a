int f(int n, int m)
{
    unsigned char c = 0; int i = 0, s = 0;
    while (i < n) {
        if (c-- >= 0 && c <= 254) { c += 1; c -= 0; }
        i++;
    }
    return c;
}
