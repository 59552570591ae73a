static int cnt;
static int next(void) { return cnt++; }
int f(int n, int m)
{
    int i = 0, s = 0;
    cnt = 0;
    while (next() < n && i < 30) { s += cnt; i++; }
    return s;
}
