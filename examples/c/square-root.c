/* The square root, rounded down: s runs through the squares, since t runs through the odd numbers. */

/*@ requires 0 <= n;
    assigns \nothing;
    ensures 0 <= \result && \result * \result <= n < (\result + 1) * (\result + 1); */
int square_root(int n)
{
    int a = 0;
    int s = 1;
    int t = 1;
    /*@ loop invariant 0 <= a && a * a <= n;
        loop variant n - s; */
    while (s <= n) {
        a++;
        t += 2;
        s += t;
    }
    return a;
}
