// The sum of two polynomials, each a list of terms whose exponents descend.
//
// In place: where both have a term of the same exponent, one cell holds the sum and the other one goes to `spare`;
// where the sum is zero, both go there.
data poly { Zero; Term(int, int, poly) }   // coefficient, exponent

fip fun sum(p: poly, q: poly): (poly, poly) { weave(p, q, Zero, Zero) }

fip fun weave(p: poly, q: poly, done: poly, spare: poly): (poly, poly) {
  match! p {
    Zero -> let all = back(done, q); (all, spare);
    Term(a, m, more) -> match! q {
      Zero -> let all = back(done, Term(a, m, more)); (all, spare);
      Term(b, n, others) ->
        if m > n { weave(more, Term(b, n, others), Term(a, m, done), spare) }
        else { if m < n { weave(Term(a, m, more), others, Term(b, n, done), spare) }
        else { if a + b == 0 { weave(more, others, done, Term(0, 0, Term(0, 0, spare))) }
        else { weave(more, others, Term(a + b, m, done), Term(0, 0, spare)) } } }
    }
  }
}

fip fun back(done: poly, rest: poly): poly {
  match! done { Zero -> rest; Term(a, n, others) -> back(others, Term(a, n, rest)) }
}
