/* The binary product: x is halved where it is even, and y is doubled. */

/*@ requires 0 <= a;
    assigns \nothing;
    ensures \result == a * b; */
int product(int a, int b)
{
    int x = a;
    int y = b;
    int z = 0;
    /*@ loop invariant 0 <= x;
        loop variant x; */
    while (x != 0) {
        if (x % 2 == 0) {
            x = x / 2;
            y = 2 * y;
        } else {
            x = x - 1;
            z = z + y;
        }
    }
    return z;
}
