int f(int n, int m)
{
    int s = 0, i0, i1, i2, i3, i4, i5, i6, i7;
    for (i0 = 0; i0 < 2; i0++) { for (i1 = 0; i1 < 2; i1++) { for (i2 = 0; i2 < 2; i2++) { for (i3 = 0; i3 < 2; i3++) { for (i4 = 0; i4 < 2; i4++) { for (i5 = 0; i5 < 2; i5++) { for (i6 = 0; i6 < 2; i6++) { for (i7 = 0; i7 < 2; i7++) { s += 2; } } } } } } } }
    return s;
}
