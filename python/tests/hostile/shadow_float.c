int f(int n, int m)
{
    int i = 0, s = 0;
    while (i < n) {
        float s = 1;
        s += 2;
        { int s = 1; s++; }
        i++;
    }
    return s;
}
