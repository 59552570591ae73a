/* Division with rest as hardware does it: b is doubled past a, and halved on the way back. */

/*@ logic integer power(integer k) = k <= 0 ? 1 : 2 * power(k - 1); */

/*@ requires 0 <= a && 0 < b;
    assigns \nothing;
    ensures b * \result <= a < b * (\result + 1); */
int quotient(int a, int b)
{
    int q = 0;
    int r = a;
    int d = b;
    int p = 1;
    //@ ghost int k = 0;
    /*@ loop invariant 0 <= k && p == power(k) && b <= d;
        loop assigns d, p, k;
        loop variant a - d; */
    while (d <= a) {
        d = 2 * d;
        p = 2 * p;
        //@ ghost k = k + 1;
    }
    /*@ loop invariant 0 <= k && p == power(k) && 0 <= r < d;
        loop assigns d, p, q, r, k;
        loop variant k; */
    while (p != 1) {
        //@ assert p == 2 * power(k - 1);
        //@ assert p % 2 == 0 && d % 2 == 0;
        d = d / 2;
        p = p / 2;
        //@ ghost k = k - 1;
        if (r >= d) {
            r = r - d;
            q = q + p;
        }
    }
    return q;
}
