/* The greatest common divisor of a and b, with the factors that make it from them. */

/*@ logic integer gcd(integer a, integer b) = a == b ? a : a > b ? gcd(a - b, b) : gcd(a, b - a); */

/*@ requires 0 < a && 0 < b;
    requires \valid(f) && \valid(g) && \separated(f, g);
    assigns *f, *g;
    ensures \result == gcd(a, b);
    ensures \result == a * *f + b * *g; */
int greatest_common_divisor(int a, int b, int *f, int *g)
{
    int x = a;
    int y = b;
    int p = 1;
    int q = 0;
    int r = 0;
    int s = 1;
    /*@ loop invariant 0 < x && 0 < y && gcd(x, y) == gcd(a, b);
        loop variant x + y; */
    while (x != y) {
        if (x > y) {
            x = x - y;
            p = p - q;
            r = r - s;
        } else {
            y = y - x;
            q = q - p;
            s = s - r;
        }
    }
    *f = p;
    *g = r;
    return x;
}
