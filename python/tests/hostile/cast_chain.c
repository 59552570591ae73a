int f(int n, int m)
{
    int i = 0; long s = 0;
    while (i < n) { s += (unsigned) -1 + 1; s += (signed char) 200; s += (unsigned char) -1; i++; }
    return s;
}
