int f(int n, int m)
{
    long long s = 0; int i = 0;
    while (i < n) { s += -1u; s += -2147483648; s += 0x80000000 - 1; s -= ~0u; i++; }
    return s & 7;
}
