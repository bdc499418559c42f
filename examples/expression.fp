// An expression is evaluated, and each node keeps the value of what is below it.
//
// In place: what is still to be done lies in the nodes on the way, which have the same size as the steps back. The
// value of a finished part is handed along as a number.
data op { Add; Sub; Mul }
data expr { Num(int); Node(op, expr, int, expr) }
data way { Top; Left(op, way, int, expr); Right(op, expr, int, way) }

fip fun run(e: expr): (expr, int) { down(e, Top) }

fip fun down(e: expr, up: way): (expr, int) {
  match! e {
    Num(n) -> home(Num(n), n, up);
    Node(op, l, old, r) -> down(l, Left(op, up, old, r))
  }
}

// e has the value n. On the way from the left side to the right one the step keeps n.
fip fun home(e: expr, n: int, up: way): (expr, int) {
  match! up {
    Top -> (e, n);
    Left(op, above, _, r) -> down(r, Right(op, e, n, above));
    Right(op, l, m, above) -> let v = apply(op, m, n); home(Node(op, l, v, e), v, above)
  }
}

fip fun apply(o: op, m: int, n: int): int { match o { Add -> m + n; Sub -> m - n; Mul -> m * n } }
