// Insertion sort.
//
// In place: an item's own cell is carried along as the list `cell` until its place is found. The way to the place is kept
// in `before`, made of the cells that were passed, and put back on the way home.
data list { Nil; Cons(int, list) }

fip fun sort(xs: list): list { insert_all(xs, Nil) }

fip fun insert_all(xs: list, sorted: list): list {
  match! xs {
    Nil -> sorted;
    Cons(x, rest) -> let more = insert(x, sorted, Nil, Cons(x, Nil)); insert_all(rest, more)
  }
}

fip fun insert(x: int, sorted: list, before: list, cell: list): list {
  match! sorted {
    Nil -> home(before, cell);
    Cons(y, rest) ->
      if y < x { insert(x, rest, Cons(y, before), cell) }
      else { home(before, link(cell, Cons(y, rest))) }
  }
}

// The one cell of `cell` in front of `rest`.
fip fun link(cell: list, rest: list): list {
  match! cell { Nil -> rest; Cons(x, others) -> home(others, Cons(x, rest)) }
}

fip fun home(before: list, rest: list): list {
  match! before { Nil -> rest; Cons(y, others) -> home(others, Cons(y, rest)) }
}
