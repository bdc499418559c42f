// Insertion into a red-black tree from the top: whatever is in conflict is mended on the way down, and the way back
// only puts the nodes together again. (`fp2 library rbtree` mends on the way back.)
//
// In place: each node that is passed becomes a step of the way back, of the same size. The new node's cell is brought
// as a value, and comes back where the key was there.
data color { Red; Black }
data tree { Leaf; Node(color, tree, int, tree) }
data way { Top; Left(color, way, int, tree); Right(color, tree, int, way) }
data cell { None; Cell(int, int, int, int) }

fip fun insert(k: int, t: tree, c: cell): (tree, cell) { down(k, t, Top, c) }

// A black node with two red ones below changes colors with them; so the uncle of a red node is always black.
fip fun down(k: int, t: tree, up: way, c: cell): (tree, cell) {
  match! t {
    Leaf -> match! c {
      None -> let s = close(Leaf, up); (s, None);
      Cell(_, _, _, _) -> redden(k, Leaf, k, Leaf, up, None)
    };
    Node(Black, Node(Red, l, x, m), y, Node(Red, n, z, r)) ->
      redden(k, Node(Black, l, x, m), y, Node(Black, n, z, r), up, c);
    Node(color, l, x, r) -> pass(k, color, l, x, r, up, c)
  }
}

// Past a node, to the side of the key, or home.
fip +4 fun pass(k: int, color: color, l: tree, x: int, r: tree, up: way, c: cell): (tree, cell) {
  if k < x { down(k, l, Left(color, up, x, r), c) }
  else { if k > x { down(k, r, Right(color, l, x, up), c) }
  else { let s = close(Node(color, l, x, r), up); (s, c) } }
}

// Past a node that has become red: where the one above is red too, the two and the black one above are turned.
fip +4 fun redden(k: int, l: tree, x: int, r: tree, up: way, c: cell): (tree, cell) {
  match! up {
    Top -> pass(k, Black, l, x, r, Top, c);
    Left(Red, Left(_, above, z, s), y, m) -> pass(k, Red, l, x, r, Left(Black, above, y, Node(Red, m, z, s)), c);
    Right(Red, m, y, Right(_, s, z, above)) -> pass(k, Red, l, x, r, Right(Black, Node(Red, s, z, m), y, above), c);
    Right(Red, m, y, Left(_, above, z, s)) -> pass(k, Black, Node(Red, m, y, l), x, Node(Red, r, z, s), above, c);
    Left(Red, Right(_, s, z, above), y, m) -> pass(k, Black, Node(Red, s, z, l), x, Node(Red, r, y, m), above, c);
    Left(_, above, y, s) -> pass(k, Red, l, x, r, Left(Black, above, y, s), c);
    Right(_, s, y, above) -> pass(k, Red, l, x, r, Right(Black, s, y, above), c)
  }
}

fip fun close(t: tree, up: way): tree {
  match! up {
    Top -> t;
    Left(c, above, x, r) -> close(Node(c, t, x, r), above);
    Right(c, l, x, above) -> close(Node(c, l, x, t), above)
  }
}
