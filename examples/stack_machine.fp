// A stack machine: it runs a program of pushes, additions and multiplications.
//
// In place: the program is only read (`^`), so it may be run again. Cells of the stack come from `free` and go back there.
// A fault is a value: what was missing is reported beside the stack.
data ops { Stop; Push(int, ops); Add(ops); Mul(ops) }
data cells { End; Cell(int, cells) }
data fault { Fine; NoCell; NoOperand }

fip fun run(^p: ops, stack: cells, free: cells): (cells, cells, fault) {
  match p {
    Stop -> (stack, free, Fine);
    Push(n, rest) -> match! free {
      End -> (stack, End, NoCell);
      Cell(_, others) -> run(rest, Cell(n, stack), others)
    };
    Add(rest) -> match! stack {
      Cell(a, Cell(b, others)) -> let c = b + a; run(rest, Cell(c, others), Cell(0, free));
      few -> (few, free, NoOperand)
    };
    Mul(rest) -> match! stack {
      Cell(a, Cell(b, others)) -> let c = b * a; run(rest, Cell(c, others), Cell(0, free));
      few -> (few, free, NoOperand)
    }
  }
}
