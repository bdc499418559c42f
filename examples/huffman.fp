// Huffman decoding: bits become symbols, by a code that is a tree.
//
// In place: the code is borrowed. A symbol takes the cell of its first bit, which waits as a credit in the header of
// `walk`; the cells of its other bits go to `spare`.
data code { Symbol(int); Fork(code, code) }
data list { Nil; Cons(int, list) }

fip fun decode(^c: code, bits: list): (list, list) { start(c, bits, Nil, Nil) }

fip fun start(^c: code, bits: list, done: list, spare: list): (list, list) {
  match! bits {
    Nil -> let all = back(done, Nil); (all, spare);
    Cons(bit, rest) -> side(c, c, bit, rest, done, spare)
  }
}

// One bit further down from `at`.
fip +2 fun side(^c: code, ^at: code, bit: int, bits: list, done: list, spare: list): (list, list) {
  match at {
    Symbol(x) -> start(c, bits, Cons(x, done), spare);
    Fork(l, r) -> if bit == 0 { walk(c, l, bits, done, spare) } else { walk(c, r, bits, done, spare) }
  }
}

// Bits that end within a symbol give none.
fip +2 fun walk(^c: code, ^at: code, bits: list, done: list, spare: list): (list, list) {
  match at {
    Symbol(x) -> start(c, bits, Cons(x, done), spare);
    Fork(l, r) -> match! bits {
      Nil -> let all = back(done, Nil); (all, Cons(0, spare));
      Cons(bit, rest) ->
        if bit == 0 { walk(c, l, rest, done, Cons(0, spare)) } else { walk(c, r, rest, done, Cons(0, spare)) }
    }
  }
}

fip fun back(done: list, rest: list): list {
  match! done { Nil -> rest; Cons(x, others) -> back(others, Cons(x, rest)) }
}
