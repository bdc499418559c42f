// A splay tree: whoever is looked for comes to the root.
//
// In place: the search turns the nodes that it passes into the way back, and `rise` takes the way apart two steps at
// a time and builds as many nodes. A new key's cell is brought as a value; with `None` the call only looks for the
// key.
data tree { Leaf; Node(tree, int, tree) }
data way { Top; Left(int, tree, way); Right(tree, int, way) }
data cell { None; Cell(int, int, int) }

fip fun splay(k: int, t: tree, c: cell): (tree, cell) { down(k, t, Top, c) }

fip fun down(k: int, t: tree, up: way, c: cell): (tree, cell) {
  match! t {
    Node(l, x, r) ->
      if k < x { down(k, l, Left(x, r, up), c) }
      else { if k > x { down(k, r, Right(l, x, up), c) } else { let s = rise(l, x, r, up); (s, c) } };
    Leaf -> match! c {
      Cell(_, _, _) -> let s = rise(Leaf, k, Leaf, up); (s, None);
      None -> match! up {
        Top -> (Leaf, None);
        Left(x, r, above) -> let s = rise(Leaf, x, r, above); (s, None);
        Right(l, x, above) -> let s = rise(l, x, Leaf, above); (s, None)
      }
    }
  }
}

// The node of l, x and r comes up two steps at a time; the cell for it comes from the caller.
fip +3 fun rise(l: tree, x: int, r: tree, up: way): tree {
  match! up {
    Top -> Node(l, x, r);
    Left(y, s, Top) -> Node(l, x, Node(r, y, s));
    Right(s, y, Top) -> Node(Node(s, y, l), x, r);
    Left(y, s, Left(z, t, above)) -> rise(l, x, Node(r, y, Node(s, z, t)), above);
    Right(s, y, Right(t, z, above)) -> rise(Node(Node(t, z, s), y, l), x, r, above);
    Left(y, s, Right(t, z, above)) -> rise(Node(t, z, l), x, Node(r, y, s), above);
    Right(s, y, Left(z, t, above)) -> rise(Node(s, y, l), x, Node(r, z, t), above)
  }
}
