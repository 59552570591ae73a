#define BUMP(x) ((x) += 2, y++)
#define LOOPY for (k = 0; k < 2; k++)
#define IF if (m > 0)
int f(int n, int m)
{
    int i = 0, x = 0, y = 0, k = 0;
    while (i < n) { BUMP(x); LOOPY y += 0; IF y += 1; i++; }
    return x;
}
