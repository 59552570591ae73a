// Division with rest.
procedure Division(a: int, b: int) returns (q: int, r: int)
  requires 0 <= a && 0 < b;
  ensures a == b*q + r && 0 <= r && r < b;
{
  q, r := 0, a;
  while (r >= b)
    invariant 0 <= r;
    // basis of division.loop
    invariant b*q - a + r == 0;
    // end of the basis
  {
    r := r - b;
    q := q + 1;
  }
}
