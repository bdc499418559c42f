// Two sorted lists become one.
//
// In place: each step moves the lesser of the two first cells onto `done`, and the other list stays whole: a variable
// that is matched by `match!` is taken apart, and is put together again in the same cell.
data list { Nil; Cons(int, list) }

fip fun merge(xs: list, ys: list): list { weave(xs, ys, Nil) }

fip fun weave(xs: list, ys: list, done: list): list {
  match! xs {
    Nil -> back(done, ys);
    Cons(x, more) -> match! ys {
      Nil -> back(done, Cons(x, more));
      Cons(y, others) ->
        if x <= y { weave(more, Cons(y, others), Cons(x, done)) }
        else { weave(Cons(x, more), others, Cons(y, done)) }
    }
  }
}

fip fun back(done: list, rest: list): list {
  match! done { Nil -> rest; Cons(x, others) -> back(others, Cons(x, rest)) }
}
