#include <stddef.h>
int f(int n, int m)
{
    size_t i, k = n < 0 ? 0 : n; int s = 0;
    for (i = 0; i < k; i++) s += 2;
    for (i = k; i-- > 0;) s -= 2;
    return s;
}
