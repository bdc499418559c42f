// What is at least as great as a bound stays.
//
// In place, but not fully: a cell that isn't needed any more is freed at once, so the function is `fbip`. It takes no
// memory, and cells of the list go down from four to two.
data list { Nil; Cons(int, list) }

fbip fun at_least(bound: int, xs: list, done: list): list {
  match! xs {
    Nil -> back(done, Nil);
    Cons(x, rest) -> if x < bound { at_least(bound, rest, done) } else { at_least(bound, rest, Cons(x, done)) }
  }
}

fip fun back(done: list, rest: list): list {
  match! done { Nil -> rest; Cons(x, others) -> back(others, Cons(x, rest)) }
}
