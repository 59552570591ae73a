int f(int n, int m)
{
    int i = 0, a = 0, b = 0;
    while (i < n) {
        switch (i++) {
        case 1: a += i; break;
        default: b++; a += i;
        }
    }
    return a;
}
