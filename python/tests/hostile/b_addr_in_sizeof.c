int f(int n, int m)
{
    int s = 0, i = 0; int *p = 0;
    while (i < n) { p = i ? p : &s; s += 2; *p -= 1; i++; }
    return s;
}
