// A pairing heap: a root, and its children as a list of trees. Two heaps are merged by making one root a child of the
// other.
//
// In place: linking takes two nodes apart and builds two. After a `pop` the children are linked by twos onto `done`,
// and then one after the other; both are loops. The cell of the least item is handed out.
data trees { Nil; Tree(int, trees, trees) }   // item, children, siblings
data heap { Empty; Heap(int, trees, int) }    // the last field makes it as large as a tree
data cell { None; Cell(int, int, int) }

fip +3 fun push(x: int, h: heap): heap { link(Heap(x, Nil, 0), h) }

fip fun pop(h: heap, otherwise: int): (heap, int, cell) {
  match! h {
    Empty -> (Empty, otherwise, None);
    Heap(x, children, _) -> let rest = pairs(children, Nil); (rest, x, Cell(0, 0, 0))
  }
}

fip fun link(a: heap, b: heap): heap {
  match! a {
    Empty -> b;
    Heap(x, c, _) -> match! b {
      Empty -> Heap(x, c, 0);
      Heap(y, d, _) -> if x <= y { Heap(x, Tree(y, d, c), 0) } else { Heap(y, Tree(x, c, d), 0) }
    }
  }
}

fip fun pairs(xs: trees, done: trees): heap {
  match! xs {
    Nil -> all(done, Empty);
    Tree(x, c, Nil) -> all(done, Heap(x, c, 0));
    Tree(x, c, Tree(y, d, rest)) ->
      if x <= y { pairs(rest, Tree(x, Tree(y, d, c), done)) } else { pairs(rest, Tree(y, Tree(x, c, d), done)) }
  }
}

fip fun all(xs: trees, h: heap): heap {
  match! xs { Nil -> h; Tree(x, c, rest) -> let more = link(Heap(x, c, 0), h); all(rest, more) }
}
