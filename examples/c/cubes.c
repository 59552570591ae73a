/* Cubes by sums alone (Cohen): x runs through the cubes of k. */

/*@ requires 0 <= n;
    assigns \nothing;
    ensures \result == n * n * n; */
int cube(int n)
{
    int x = 0;
    int y = 1;
    int z = 6;
    /*@ loop invariant 0 <= k <= n;
        loop variant n - k; */
    for (int k = 0; k < n; k++) {
        x += y;
        y += z;
        z += 6;
    }
    return x;
}
