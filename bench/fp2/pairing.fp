
// Rounds: each item is changed by a linear congruence and pushed; then all are popped.
data items { End; Item(int, int, items) }
fbip fun rounds(m: int, xs: items): items {
  if m <= 0 { xs } else { let h = fill(xs, Empty); let ys = drain(h, End); rounds(m - 1, ys) }
}
fip fun fill(xs: items, h: heap): heap {
  match! xs { End -> h; Item(x, _, rest) -> let g = push((x * 1103515245 + 12345) % 2147483648, h); fill(rest, g) }
}
fbip fun drain(h: heap, done: items): items {
  let (rest, x, c) = pop(h, 0);
  match! c { None -> done; Cell(_, _, _) -> drain(rest, Item(x, 0, done)) }
}
