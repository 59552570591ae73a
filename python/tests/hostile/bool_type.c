#include <stdbool.h>
int f(int n, int m)
{
    bool b = false; int i = 0; _Bool c = 0;
    while (i < n) { b += 1; c = c + 2; i++; }
    return b;
}
