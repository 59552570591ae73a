/* Sums of the first n numbers, of their squares and of their cubes. */

/*@ requires 0 <= n;
    assigns \nothing;
    ensures 2 * \result == n * (n + 1); */
int sum_of_numbers(int n)
{
    int s = 0;
    /*@ loop invariant 0 <= k <= n;
        loop variant n - k; */
    for (int k = 0; k < n; k++) {
        s += k + 1;
    }
    return s;
}

/*@ requires 0 <= n;
    assigns \nothing;
    ensures 6 * \result == n * (n + 1) * (2 * n + 1); */
int sum_of_squares(int n)
{
    int s = 0;
    /*@ loop invariant 0 <= k <= n;
        loop variant n - k; */
    for (int k = 0; k < n; k++) {
        s += (k + 1) * (k + 1);
    }
    return s;
}

/*@ requires 0 <= n;
    assigns \nothing;
    ensures 4 * \result == n * n * (n + 1) * (n + 1); */
int sum_of_cubes(int n)
{
    int s = 0;
    /*@ loop invariant 0 <= k <= n;
        loop variant n - k; */
    for (int k = 0; k < n; k++) {
        s += (k + 1) * (k + 1) * (k + 1);
    }
    return s;
}
