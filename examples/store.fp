// A small store of keys and values in a search tree, with a fixed number of entries.
//
// In place: `set` takes an entry's cell only where the key is new, and hands the cell back where it was there. The way down
// is kept in turned cells, so that no frame is held.
data tree { Leaf; Node(tree, int, int, tree) }
data way { Top; Left(int, int, tree, way); Right(tree, int, int, way) }
data cell { None; Cell(int, int, int, int) }

fip fun set(key: int, value: int, t: tree, c: cell): (tree, cell, bool) { down(key, value, t, Top, c) }

fip fun down(key: int, value: int, t: tree, up: way, c: cell): (tree, cell, bool) {
  match! t {
    Leaf -> match! c {
      None -> home(Leaf, up, None, False);
      Cell(_, _, _, _) -> home(Node(Leaf, key, value, Leaf), up, None, True)
    };
    Node(l, k, v, r) ->
      if key == k { home(Node(l, k, value, r), up, c, True) }
      else { if key < k { down(key, value, l, Left(k, v, r, up), c) } else { down(key, value, r, Right(l, k, v, up), c) } }
  }
}

fip fun home(t: tree, up: way, c: cell, done: bool): (tree, cell, bool) {
  match! up {
    Top -> (t, c, done);
    Left(k, v, r, above) -> home(Node(t, k, v, r), above, c, done);
    Right(l, k, v, above) -> home(Node(l, k, v, t), above, c, done)
  }
}

fip fun get(key: int, ^t: tree, otherwise: int): int {
  match t {
    Leaf -> otherwise;
    Node(l, k, v, r) -> if key == k { v } else { if key < k { get(key, l, otherwise) } else { get(key, r, otherwise) } }
  }
}
