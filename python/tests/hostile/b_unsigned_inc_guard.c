int f(int n, int m)
{
    unsigned u = 4294967295u; int i = 0; unsigned long long s = 0;
    while (i < n) {
        u = 4294967294u;
        if (u++ > 0 && u < 4294967295u) { u++; s += 1; }
        i++;
    }
    return s;
}
