// A leftist heap: the path to the right is short, and two heaps are merged along it.
//
// In place: the nodes on the two paths become the way back, of the same size, and become nodes again with their sides
// exchanged where the right one is the longer. `pop` hands the cell of the least item out.
data heap { Empty; Node(int, heap, int, heap) }   // the length of the right path, left, item, right
data way { Top; Step(int, heap, int, way) }
data cell { None; Cell(int, int, int, int) }

fip +4 fun push(x: int, h: heap): heap { merge(Node(1, Empty, x, Empty), h, Top) }

fip fun pop(h: heap, otherwise: int): (heap, int, cell) {
  match! h {
    Empty -> (Empty, otherwise, None);
    Node(_, l, x, r) -> let rest = merge(l, r, Top); (rest, x, Cell(0, 0, 0, 0))
  }
}

fip fun join(a: heap, b: heap): heap { merge(a, b, Top) }

fip fun merge(a: heap, b: heap, up: way): heap {
  match! a {
    Empty -> home(b, up);
    Node(n, l, x, r) -> match! b {
      Empty -> home(Node(n, l, x, r), up);
      Node(m, l2, y, r2) ->
        if x <= y { merge(r, Node(m, l2, y, r2), Step(0, l, x, up)) }
        else { merge(Node(n, l, x, r), r2, Step(0, l2, y, up)) }
    }
  }
}

fip fun home(h: heap, up: way): heap {
  match! up {
    Top -> h;
    Step(_, l, x, above) ->
      let a = rank(l);
      let b = rank(h);
      if a >= b { home(Node(b + 1, l, x, h), above) } else { home(Node(a + 1, h, x, l), above) }
  }
}

fip fun rank(^h: heap): int { match h { Empty -> 0; Node(n, _, _, _) -> n } }
