// A queue of two lists. What comes in goes on `back`, what goes out leaves `front`; where the front is empty, the back is
// turned.
//
// In place: `push` states in its header that the caller hands it one cell of size 2, and that cell holds the new item.
// `pop` hands the cell of the item out again, as a `Spare`, so nothing is lost and nothing is made.
data list { Nil; Cons(int, list) }
data queue { Queue(list, list) }
data spare { None; Spare(int, int) }

fip +2 fun push(x: int, q: queue): queue {
  match! q { Queue(front, back) -> Queue(front, Cons(x, back)) }
}

fip fun turn(xs: list, done: list): list {
  match! xs { Nil -> done; Cons(x, rest) -> turn(rest, Cons(x, done)) }
}

// The item that came in first, and its cell; `otherwise` and no cell where the queue is empty.
fip fun pop(q: queue, otherwise: int): (queue, int, spare) {
  match! q {
    Queue(Cons(x, front), back) -> (Queue(front, back), x, Spare(0, 0));
    Queue(Nil, back) ->
      let turned = turn(back, Nil);
      match! turned {
        Nil -> (Queue(Nil, Nil), otherwise, None);
        Cons(x, rest) -> (Queue(rest, Nil), x, Spare(0, 0))
      }
  }
}
