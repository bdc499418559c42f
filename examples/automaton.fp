// An automaton that is given as a table: which state follows on which state and sign.
//
// In place: the table is borrowed, so one table serves any number of words. Each sign's cell takes the state that was
// reached with it, and the whole way is handed out.
data table { End; Row(int, int, int, table) }   // state, sign, the state that follows
data word { Nil; Cons(int, word) }

fip fun run(^t: table, state: int, w: word): (word, int) { go(t, state, w, Nil) }

fip fun go(^t: table, state: int, w: word, done: word): (word, int) {
  match! w {
    Nil -> let all = back(done, Nil); (all, state);
    Cons(sign, rest) -> let next = find(t, state, sign); go(t, next, rest, Cons(next, done))
  }
}

// Where no row matches, the state is -1, and stays so.
fip fun find(^t: table, state: int, sign: int): int {
  match t {
    End -> -1;
    Row(from, on, to, rest) ->
      if from == state { if on == sign { to } else { find(rest, state, sign) } } else { find(rest, state, sign) }
  }
}

fip fun back(done: word, rest: word): word {
  match! done { Nil -> rest; Cons(x, others) -> back(others, Cons(x, rest)) }
}
