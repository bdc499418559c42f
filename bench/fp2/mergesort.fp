
// Rounds: each item is changed by a linear congruence, and all are sorted again.
fip fun rounds(m: int, xs: list): list {
  if m <= 0 { xs } else { let ys = mix(xs, Nil); let zs = sort(ys); rounds(m - 1, zs) }
}
fip fun mix(xs: list, done: list): list {
  match! xs { Nil -> done; Cons(x, rest) -> mix(rest, Cons((x * 1103515245 + 12345) % 2147483648, done)) }
}
