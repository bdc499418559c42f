
// Rounds: each looks for a key that a linear congruence draws.
fbip fun rounds(m: int, x: int, t: tree): tree {
  if m <= 0 { t } else {
    let y = (x * 1103515245 + 12345) % 2147483648;
    let (s, _) = splay(y / 65536 % 8192, t, None);
    rounds(m - 1, y, s)
  }
}
