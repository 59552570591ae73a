/* The logarithm of n to the base 10, rounded down, by products: q is the next power of p. */

/*@ logic integer power(integer k) = k <= 0 ? 1 : 10 * power(k - 1); */

/*@ requires 0 < n;
    assigns \nothing;
    ensures 0 <= \result && power(\result) <= n < power(\result + 1); */
int logarithm(int n)
{
    int k = 0;
    int p = 1;
    int q = 10;
    /*@ loop invariant 0 <= k && p == power(k) && 0 < p <= n;
        loop variant n - p; */
    while (q <= n) {
        p = 10 * p;
        q = 10 * q;
        k++;
    }
    return k;
}
