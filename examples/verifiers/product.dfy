// The binary product: x is halved where it is even, and y is doubled.
method Multiply(a: int, b: int) returns (z: int)
  requires 0 <= a
  ensures z == a*b
{
  var x, y := a, b;
  z := 0;
  while x != 0
    invariant 0 <= x
    // basis of product.loop
    invariant a*b - x*y - z == 0
    // end of the basis
    decreases x
  {
    if x % 2 == 0 {
      x, y := x/2, 2*y;
    } else {
      x := x - 1;
      z := z + y;
    }
  }
}
