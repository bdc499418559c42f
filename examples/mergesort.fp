// Merge sort, from the bottom: runs that are there already are merged by twos until one is left.
//
// In place: a run is turned while it is taken off, so the lists `a` and `b` ascend; merged onto `done` they descend
// again, and are the input of the next pass. All four functions are one loop, so no frame waits.
data list { Nil; Cons(int, list) }

fip fun sort(xs: list): list { pass(xs, Nil) }

// The list falls into runs that descend. The first one goes to `first`.
fip fun pass(xs: list, done: list): list {
  match! xs {
    Nil -> match! done { Nil -> Nil; Cons(x, rest) -> pass(Cons(x, rest), Nil) };
    Cons(x, rest) -> first(x, rest, Cons(x, Nil), done)
  }
}

// `last` is the first item of `a`. Where there is only one run, it is the result.
fip fun first(last: int, xs: list, a: list, done: list): list {
  match! xs {
    Nil -> match! done { Nil -> a; Cons(d, others) -> weave(a, Nil, Nil, Cons(d, others)) };
    Cons(x, rest) ->
      if x <= last { first(x, rest, Cons(x, a), done) } else { second(x, rest, a, Cons(x, Nil), done) }
  }
}

fip fun second(last: int, xs: list, a: list, b: list, done: list): list {
  match! xs {
    Nil -> weave(a, b, Nil, done);
    Cons(x, rest) ->
      if x <= last { second(x, rest, a, Cons(x, b), done) } else { weave(a, b, Cons(x, rest), done) }
  }
}

fip fun weave(a: list, b: list, xs: list, done: list): list {
  match! a {
    Nil -> match! b { Nil -> pass(xs, done); Cons(y, others) -> weave(Nil, others, xs, Cons(y, done)) };
    Cons(x, more) -> match! b {
      Nil -> weave(more, Nil, xs, Cons(x, done));
      Cons(y, others) ->
        if x <= y { weave(more, Cons(y, others), xs, Cons(x, done)) }
        else { weave(Cons(x, more), others, xs, Cons(y, done)) }
    }
  }
}
