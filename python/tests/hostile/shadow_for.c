int f(int n, int m)
{
    int i = 100, s = 0;
    for (int i = 0; i < n; i++) { s += 2; { int s = 4; s += i; } }
    while (i < 110) { s += 1; i++; }
    return s;
}
