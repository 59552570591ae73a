#include <setjmp.h>
int f(int n, int m)
{
    jmp_buf b; volatile int once = 0; int i = 0; volatile int s = 0; int t = 0;
    while (i < n) {
        i++;
        if (setjmp(b)) s += 10;
        t++;
        if (!once++) longjmp(b, 1);
    }
    return s;
}
