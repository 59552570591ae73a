/* The square root, rounded down (Dijkstra): a binary digit a turn, by sums and halves alone. */

/*@ logic integer power(integer k) = k <= 0 ? 1 : 4 * power(k - 1); */

/*@ requires 0 <= n;
    assigns \nothing;
    ensures \result * \result <= n < (\result + 1) * (\result + 1); */
int square_root(int n)
{
    int p = 0;
    int q = 1;
    int r = n;
    //@ ghost int k = 0;
    //@ ghost int m = 0;
    /*@ loop invariant 0 <= k && 0 < q && q == power(k);
        loop assigns q, k;
        loop variant n - q; */
    while (q <= n) {
        q = 4 * q;
        //@ ghost k = k + 1;
    }
    /*@ loop invariant 0 <= k && 0 < q && q == power(k);
        loop invariant p == m * q && 0 <= m;
        loop invariant 0 <= r < 2 * p + q;
        loop assigns p, q, r, k, m;
        loop variant k; */
    while (q != 1) {
        //@ assert q == 4 * power(k - 1);
        //@ assert q % 4 == 0 && p % 2 == 0;
        q = q / 4;
        int h = p + q;
        //@ assert p == 4 * m * q;
        p = p / 2;
        //@ assert p == 2 * m * q;
        //@ assert p * p - n * q + q * r == 0;
        //@ ghost k = k - 1;
        //@ ghost m = 2 * m;
        if (r >= h) {
            p = p + q;
            r = r - h;
            //@ ghost m = m + 1;
        }
    }
    return p;
}
