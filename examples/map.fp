// A list's items are changed one by one, in the cells that they lie in, by any function that keeps the kind.
//
// In place: `over` takes a cell apart and puts the changed item into the same cell, in front of what is done. So the list
// comes out backwards, and `back` turns it again. Both are loops: a call in tail position keeps no frame.
data list[a] { Nil; Cons(a, list[a]) }

fip fun back[a](xs: list[a], done: list[a]): list[a] {
  match! xs { Nil -> done; Cons(x, rest) -> back[a](rest, Cons(x, done)) }
}

fip fun over[a, b, f: fun(a): b](xs: list[a], done: list[b]): list[b] {
  match! xs {
    Nil -> back[b](done, Nil);
    Cons(x, rest) -> let y = f(x); over[a, b, f](rest, Cons(y, done))
  }
}

fip fun is_even(n: int): bool { n % 2 == 0 }

fip fun evens(xs: list[int]): list[bool] { over[int, bool, is_even](xs, Nil) }
