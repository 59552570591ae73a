/* Division with rest: b is taken from the rest as often as it goes. */

/*@ requires 0 <= a && 0 < b;
    assigns \nothing;
    ensures b * \result <= a < b * (\result + 1); */
int quotient(int a, int b)
{
    int q = 0;
    int r = a;
    /*@ loop invariant 0 <= r;
        loop variant r; */
    while (r >= b) {
        r = r - b;
        q = q + 1;
    }
    return q;
}
