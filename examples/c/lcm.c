/* The least common multiple of a and b (Dijkstra): x and y become their greatest common divisor. */

/*@ logic integer gcd(integer a, integer b) = a == b ? a : a > b ? gcd(a - b, b) : gcd(a, b - a); */

/*@ requires 0 < a && 0 < b;
    assigns \nothing;
    ensures \result * gcd(a, b) == a * b; */
int least_common_multiple(int a, int b)
{
    int x = a;
    int y = b;
    int u = b;
    int v = 0;
    /*@ loop invariant 0 < x && 0 < y && gcd(x, y) == gcd(a, b);
        loop variant x + y; */
    while (x != y) {
        /*@ loop invariant 0 < x && 0 < y && gcd(x, y) == gcd(a, b);
            loop invariant x + y <= \at(x + y, LoopEntry);
            loop variant x; */
        while (x > y) {
            x = x - y;
            v = v + u;
        }
        /*@ loop invariant 0 < x && 0 < y && gcd(x, y) == gcd(a, b);
            loop invariant x + y <= \at(x + y, LoopEntry);
            loop variant y; */
        while (y > x) {
            y = y - x;
            u = u + v;
        }
    }
    return u + v;
}
