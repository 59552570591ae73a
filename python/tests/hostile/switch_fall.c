int f(int n, int m)
{
    int i = 0, a = 0, b = 0, c = 0;
    while (i < n) {
        switch (m) {
        case 1: a++;
        case 2: b++; break;
        default: c++;
        case 3: a++; b++;
        }
        i++;
    }
    return a;
}
