// A bounded buffer, as between a sampler and a sender: it holds as many items as it was given slots.
//
// In place: a slot that is free lies in the list `free`. `put` moves a slot to the items, `get` moves it back. A full
// buffer is reported by the flag, and is handed back as it was.
data slots { End; Slot(int, slots) }
data buffer { Buffer(slots, slots, slots) }

// The fields of Buffer: what came in, last first; what goes out, first first; free slots.
fip fun put(x: int, b: buffer): (buffer, bool) {
  match! b {
    Buffer(ins, outs, Slot(_, free)) -> (Buffer(Slot(x, ins), outs, free), True);
    Buffer(ins, outs, End) -> (Buffer(ins, outs, End), False)
  }
}

fip fun get(b: buffer, otherwise: int): (buffer, int, bool) {
  match! b {
    Buffer(ins, Slot(x, outs), free) -> (Buffer(ins, outs, Slot(0, free)), x, True);
    Buffer(ins, End, free) ->
      let turned = turn(ins, End);
      match! turned {
        End -> (Buffer(End, End, free), otherwise, False);
        Slot(x, others) -> (Buffer(End, others, Slot(0, free)), x, True)
      }
  }
}

fip fun turn(xs: slots, done: slots): slots {
  match! xs { End -> done; Slot(x, rest) -> turn(rest, Slot(x, done)) }
}
