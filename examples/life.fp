// The game of life on a small torus. A row is a number whose decimal digits are its fields, 0 or 1; `unit` is 1 with
// as many zeros as a row has further fields (at most 17).
//
// In place: a row's cell takes the next row. The sum of the three rows around a field, each added to itself turned by
// one field to either side, is one number as well: nine fields fit a digit.
data rows { Nil; Cons(int, rows) }

fip fun live(turns: int, unit: int, xs: rows): rows {
  if turns <= 0 { xs } else { let ys = step(unit, xs); live(turns - 1, unit, ys) }
}

fip fun step(unit: int, xs: rows): rows {
  let first = head(xs, 0);
  let above = last(xs, 0);
  walk(unit, first, above, xs, Nil)
}

// `above` is the old row before xs. After the last row comes the first one.
fip fun walk(unit: int, first: int, above: int, xs: rows, done: rows): rows {
  match! xs {
    Nil -> back(done, Nil);
    Cons(x, rest) ->
      let below = head(rest, first);
      let sum = three(unit, above) + three(unit, x) + three(unit, below);
      let y = fields(unit, sum, x, 0);
      walk(unit, first, x, rest, Cons(y, done))
  }
}

fip fun three(unit: int, x: int): int { x + x / 10 + x % 10 * unit + x % unit * 10 + x / unit }

// From the left: a field lives where three fields of the nine live, or four and it is one of them.
fip fun fields(unit: int, sum: int, x: int, done: int): int {
  if unit == 0 { done } else {
    let n = sum / unit;
    let old = x / unit;
    let new = if n == 3 { 1 } else { if n == 4 { old } else { 0 } };
    fields(unit / 10, sum % unit, x % unit, done * 10 + new)
  }
}

fip fun head(^xs: rows, otherwise: int): int { match xs { Nil -> otherwise; Cons(x, _) -> x } }
fip fun last(^xs: rows, found: int): int { match xs { Nil -> found; Cons(x, rest) -> last(rest, x) } }
fip fun back(done: rows, rest: rows): rows {
  match! done { Nil -> rest; Cons(x, others) -> back(others, Cons(x, rest)) }
}
