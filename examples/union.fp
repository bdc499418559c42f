// The union of two sets, each a list that ascends.
//
// In place: the lesser of the two first items moves onto `done` in its own cell. An item that is in both sets needs
// one cell of two; the other one goes to `spare` and is handed out.
data set { Nil; Cons(int, set) }

fip fun union(xs: set, ys: set): (set, set) { weave(xs, ys, Nil, Nil) }

fip fun weave(xs: set, ys: set, done: set, spare: set): (set, set) {
  match! xs {
    Nil -> let all = back(done, ys); (all, spare);
    Cons(x, more) -> match! ys {
      Nil -> let all = back(done, Cons(x, more)); (all, spare);
      Cons(y, others) ->
        if x < y { weave(more, Cons(y, others), Cons(x, done), spare) }
        else { if x > y { weave(Cons(x, more), others, Cons(y, done), spare) }
        else { weave(more, others, Cons(x, done), Cons(0, spare)) } }
    }
  }
}

fip fun back(done: set, rest: set): set {
  match! done { Nil -> rest; Cons(x, others) -> back(others, Cons(x, rest)) }
}
