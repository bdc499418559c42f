// Quicksort of a list, with the parts that are still to be sorted kept in the list's own cells.
//
// In place: a part of at least two items ends in a `Pair`, so it has a cell fewer than items, and that cell links the
// part to the others. So k items always hold k cells, however they are divided.
data list { Nil; Cons(int, list) }
data items { Pair(int, int); More(int, items) }
data parts { End; One(int, parts); Some(items, parts) }
data bucket { None; Single(int, int); Many(items, int) }

fip fun sort(xs: list): list { gather(xs, None) }

fip fun gather(xs: list, b: bucket): list {
  match! xs {
    Nil -> let p = link(b, End); sorted(p, Nil);
    Cons(x, rest) -> let c = add(x, b); gather(rest, c)
  }
}

// The parts stand greatest first, and their items come in front of `done`.
fip fun sorted(p: parts, done: list): list {
  match! p {
    End -> done;
    One(x, rest) -> sorted(rest, Cons(x, done));
    Some(Pair(x, y), rest) ->
      if x <= y { sorted(rest, Cons(x, Cons(y, done))) } else { sorted(rest, Cons(y, Cons(x, done))) };
    Some(More(pivot, s), rest) -> split(pivot, s, None, None, rest, done)
  }
}

// The two credits: the pivot's cell, and the one by which a `Pair` has fewer.
fip +2 +2 fun split(pivot: int, s: items, less: bucket, greater: bucket, rest: parts, done: list): list {
  match! s {
    More(x, s) ->
      if x < pivot { let l = add(x, less); split(pivot, s, l, greater, rest, done) }
      else { let g = add(x, greater); split(pivot, s, less, g, rest, done) };
    Pair(x, y) ->
      let (l, g) = put(x, pivot, less, greater);
      let (l, g) = put(y, pivot, l, g);
      let low = link(l, rest);
      let all = link(g, One(pivot, low));
      sorted(all, done)
  }
}

fip +2 fun put(x: int, pivot: int, less: bucket, greater: bucket): (bucket, bucket) {
  if x < pivot { let l = add(x, less); (l, greater) } else { let g = add(x, greater); (less, g) }
}

fip +2 fun add(x: int, b: bucket): bucket {
  match! b { None -> Single(x, 0); Single(y, _) -> Many(Pair(x, y), 0); Many(s, _) -> Many(More(x, s), 0) }
}

fip fun link(b: bucket, rest: parts): parts {
  match! b { None -> rest; Single(x, _) -> One(x, rest); Many(s, _) -> Some(s, rest) }
}
