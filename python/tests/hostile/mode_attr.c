typedef int QI __attribute__((mode(QI)));
int f(int n, int m)
{
    QI s = 0; int i = 0;
    while (i < n) { s += 20; i++; }
    return s;
}
