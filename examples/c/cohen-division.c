/* Division with rest (Cohen): the greatest multiple b = m*y by a power of two is taken from the rest. */

/*@ requires 0 <= x && 0 < y;
    assigns \nothing;
    ensures y * \result <= x < y * (\result + 1); */
int quotient(int x, int y)
{
    int q = 0;
    int r = x;
    /*@ loop invariant 0 <= r;
        loop assigns q, r;
        loop variant r; */
    while (r >= y) {
        int m = 1;
        int b = y;
        /*@ loop invariant 0 < b <= r;
            loop variant r - b; */
        while (r >= 2 * b) {
            m = 2 * m;
            b = 2 * b;
        }
        r = r - b;
        q = q + m;
    }
    return q;
}
