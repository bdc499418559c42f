// Run-length coding: a list of items with counts, in which neighbours that are equal become one, and back.
//
// In place: two neighbours that are equal give up a cell, which goes to `spare`; `decode` takes it from there. Where
// no cell is left a run stays as it is.
data runs { End; Run(int, int, runs) }   // item, how often

fip fun encode(xs: runs): (runs, runs) { join(xs, End, End) }

fip fun join(xs: runs, done: runs, spare: runs): (runs, runs) {
  match! xs {
    Run(x, n, Run(y, m, rest)) ->
      if x == y { join(Run(x, n + m, rest), done, Run(0, 0, spare)) }
      else { join(Run(y, m, rest), Run(x, n, done), spare) };
    Run(x, n, End) -> let all = back(Run(x, n, done), End); (all, spare);
    End -> let all = back(done, End); (all, spare)
  }
}

fip fun decode(xs: runs, spare: runs): (runs, runs) { part(xs, spare, End) }

fip fun part(xs: runs, spare: runs, done: runs): (runs, runs) {
  match! xs {
    End -> let all = back(done, End); (all, spare);
    Run(x, n, rest) ->
      if n <= 1 { part(rest, spare, Run(x, n, done)) }
      else {
        match! spare {
          End -> part(rest, End, Run(x, n, done));
          Run(_, _, others) -> part(Run(x, n - 1, rest), others, Run(x, 1, done))
        }
      }
  }
}

fip fun back(done: runs, rest: runs): runs {
  match! done { End -> rest; Run(x, n, others) -> back(others, Run(x, n, rest)) }
}
