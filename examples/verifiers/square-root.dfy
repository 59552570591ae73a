// The square root, rounded down: s runs through the squares, since t runs through the odd numbers.
method SquareRoot(n: int) returns (a: int)
  requires 0 <= n
  ensures a*a <= n < (a + 1)*(a + 1)
{
  a := 0;
  var s, t := 1, 1;
  while s <= n
    invariant 0 <= a && a*a <= n
    // basis of square-root.loop
    invariant 2*a - t + 1 == 0
    invariant t*t - 4*s + 2*t + 1 == 0
    // end of the basis
    decreases n - s
  {
    Square(a, s, t);
    a := a + 1;
    t := t + 2;
    s := s + t;
  }
  Square(a, s, t);
}

// What the two equations say of s.
lemma Square(a: int, s: int, t: int)
  requires 2*a - t + 1 == 0
  requires t*t - 4*s + 2*t + 1 == 0
  ensures s == (a + 1)*(a + 1)
{
  calc {
    4*s;
    t*t + 2*t + 1;
    (t + 1)*(t + 1);
    (2*a + 2)*(2*a + 2);
    4*((a + 1)*(a + 1));
  }
}
