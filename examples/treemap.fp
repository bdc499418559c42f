// Every number of a tree grows by one, from left to right, without recursion.
//
// In place: on the way down each node's cell is turned into a step of the way back (`Left` or `Right`), which has the same
// size; on the way up it is turned into a node again. That is the pointer reversal of Deutsch, Schorr and Waite, written
// as two functions that call each other in tail position.
data tree { Leaf; Node(tree, int, tree) }
data way { Top; Left(int, tree, way); Right(tree, int, way) }

fip fun grow(t: tree): tree { down(t, Top) }

fip fun down(t: tree, up: way): tree {
  match! t { Leaf -> home(Leaf, up); Node(l, n, r) -> down(l, Left(n, r, up)) }
}

fip fun home(t: tree, up: way): tree {
  match! up {
    Top -> t;
    Left(n, r, above) -> let m = n + 1; down(r, Right(t, m, above));
    Right(l, n, above) -> home(Node(l, n, t), above)
  }
}
