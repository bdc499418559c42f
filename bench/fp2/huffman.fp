
// Rounds: the cells take bits that a linear congruence draws, and are decoded; symbols first, then spare cells.
fip fun rounds(m: int, seed: int, ^c: code, xs: list): list {
  if m <= 0 { xs } else {
    let (bits, next) = fill(xs, seed, Nil);
    let (symbols, spare) = decode(c, bits);
    let all = back(symbols, spare);
    rounds(m - 1, next, c, all)
  }
}
fip fun fill(xs: list, seed: int, done: list): (list, int) {
  match! xs {
    Nil -> (done, seed);
    Cons(_, rest) -> let next = (seed * 1103515245 + 12345) % 2147483648; fill(rest, next, Cons(next / 65536 % 2, done))
  }
}
