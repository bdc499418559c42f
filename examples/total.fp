// The sum of a list that is only read.
//
// In place: a borrowed parameter (`^`) is read by `match`, and its cells stay with the caller, who still has them afterwards:
// `share` lends the list to `total` in a `let`, and hands it on.
data list { Nil; Cons(int, list) }

fip fun total(^xs: list, sum: int): int {
  match xs { Nil -> sum; Cons(x, rest) -> total(rest, sum + x) }
}

fip fun share(xs: list): (list, int) { let sum = total(xs, 0); (xs, sum) }
