// Insertion into an AVL tree: each node knows which of its sides is the higher one.
//
// In place: the nodes that were passed are the way back, of the same size. A rotation takes two or three nodes apart
// and builds as many. The new node's cell is brought as a value, and comes back where the key was there.
data tilt { Low; Even; High }   // which side is higher: the left one, neither, the right one
data tree { Leaf; Node(tilt, tree, int, tree) }
data way { Top; Left(tilt, way, int, tree); Right(tilt, tree, int, way) }
data cell { None; Cell(int, int, int, int) }

fip fun insert(k: int, t: tree, c: cell): (tree, cell) { down(k, t, Top, c) }

fip fun down(k: int, t: tree, up: way, c: cell): (tree, cell) {
  match! t {
    Leaf -> match! c {
      None -> let s = close(Leaf, up); (s, None);
      Cell(_, _, _, _) -> let s = grown(Node(Even, Leaf, k, Leaf), up); (s, None)
    };
    Node(tilt, l, x, r) ->
      if k < x { down(k, l, Left(tilt, up, x, r), c) }
      else { if k > x { down(k, r, Right(tilt, l, x, up), c) }
      else { let s = close(Node(tilt, l, x, r), up); (s, c) } }
  }
}

// t is higher by one than what was there.
fip fun grown(t: tree, up: way): tree {
  match! up {
    Top -> t;
    Left(High, above, x, r) -> close(Node(Even, t, x, r), above);
    Left(Even, above, x, r) -> grown(Node(Low, t, x, r), above);
    Left(Low, above, x, r) -> match! t {
      Node(High, l, y, Node(tilt, m, z, n)) ->
        close(Node(Even, Node(left(tilt), l, y, m), z, Node(right(tilt), n, x, r)), above);
      Node(_, l, y, m) -> close(Node(Even, l, y, Node(Even, m, x, r)), above);
      Leaf -> close(Node(Low, Leaf, x, r), above)
    };
    Right(Low, l, x, above) -> close(Node(Even, l, x, t), above);
    Right(Even, l, x, above) -> grown(Node(High, l, x, t), above);
    Right(High, l, x, above) -> match! t {
      Node(Low, Node(tilt, m, z, n), y, r) ->
        close(Node(Even, Node(left(tilt), l, x, m), z, Node(right(tilt), n, y, r)), above);
      Node(_, m, y, r) -> close(Node(Even, Node(Even, l, x, m), y, r), above);
      Leaf -> close(Node(High, l, x, Leaf), above)
    }
  }
}

fip fun left(t: tilt): tilt { match t { High -> Low; _ -> Even } }
fip fun right(t: tilt): tilt { match t { Low -> High; _ -> Even } }

fip fun close(t: tree, up: way): tree {
  match! up {
    Top -> t;
    Left(tilt, above, x, r) -> close(Node(tilt, t, x, r), above);
    Right(tilt, l, x, above) -> close(Node(tilt, l, x, t), above)
  }
}
