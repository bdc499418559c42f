// A banker's queue: two lists with their lengths, where the back is never the longer one.
//
// In place: where the back would become longer, `balance` reverses it and appends it to the front, in its own cells. A
// value is used once, so no old queue can be asked again: each turn is paid for once, and no suspended work is
// needed.
data list { Nil; Cons(int, list) }
data queue { Queue(int, list, int, list) }
data spare { None; Spare(int, int) }

fip +2 fun push(x: int, q: queue): queue {
  match! q { Queue(n, front, m, back) -> balance(n, front, m + 1, Cons(x, back)) }
}

// The item that came in first, and its cell; `otherwise` and no cell where the queue is empty.
fip fun pop(q: queue, otherwise: int): (queue, int, spare) {
  match! q {
    Queue(n, Cons(x, front), m, back) -> let r = balance(n - 1, front, m, back); (r, x, Spare(0, 0));
    Queue(n, Nil, m, back) -> (Queue(n, Nil, m, back), otherwise, None)
  }
}

fip +4 fun balance(n: int, front: list, m: int, back: list): queue {
  if m <= n { Queue(n, front, m, back) }
  else {
    let before = turn(front, Nil);
    let after = turn(back, Nil);
    let all = turn(before, after);
    Queue(n + m, all, 0, Nil)
  }
}

fip fun turn(xs: list, done: list): list {
  match! xs { Nil -> done; Cons(x, rest) -> turn(rest, Cons(x, done)) }
}
