// The square root, rounded down: s runs through the squares, since t runs through the odd numbers.
procedure SquareRoot(n: int) returns (a: int)
  requires 0 <= n;
  ensures a*a <= n && n < (a + 1)*(a + 1);
{
  var s, t: int;
  a, s, t := 0, 1, 1;
  while (s <= n)
    invariant 0 <= a && a*a <= n;
    // basis of square-root.loop
    invariant 2*a - t + 1 == 0;
    invariant t*t - 4*s + 2*t + 1 == 0;
    // end of the basis
  {
    assert t == 2*a + 1;
    assert s == (a + 1)*(a + 1);
    a := a + 1;
    t := t + 2;
    s := s + t;
  }
  assert t == 2*a + 1;
  assert s == (a + 1)*(a + 1);
}
