// A controller that keeps a tank warm: one call for each reading, with a state that lives from call to call.
//
// In place: the state is one cell, taken apart and built again at each reading. In a session it is all that the store
// holds.
data mode { Off; Heating; Fault }
data state { State(mode, int, int, int) }   // mode, wanted, last reading, readings in a row that can't be

fip +4 fun start(wanted: int): state { State(Off, wanted, wanted, 0) }

fip fun want(wanted: int, s: state): state {
  match! s { State(mode, _, last, bad) -> State(mode, wanted, last, bad) }
}

// The state, and the power in percent. One degree around what is wanted nothing is switched.
fip fun read(now: int, s: state): (state, int) {
  match! s {
    State(mode, wanted, last, bad) ->
      let off = distance(now, last);
      if off > 20 { suspect(State(mode, wanted, last, bad + 1)) }
      else {
        let next = if now < wanted - 1 { Heating } else { if now > wanted + 1 { Off } else { mode } };
        let power = percent(next, wanted - now);
        (State(next, wanted, now, 0), power)
      }
  }
}

// A jump is passed over twice; the third one is a fault, which switches off until `read` sees the old range again.
fip fun suspect(s: state): (state, int) {
  match! s {
    State(mode, wanted, last, bad) ->
      if bad < 3 { let p = percent(mode, wanted - last); (State(mode, wanted, last, bad), p) }
      else { (State(Fault, wanted, last, 3), 0) }
  }
}

fip fun percent(m: mode, missing: int): int {
  match m { Heating -> if missing > 9 { 100 } else { if missing < 1 { 10 } else { missing * 10 } }; _ -> 0 }
}

fip fun distance(a: int, b: int): int { if a < b { b - a } else { a - b } }
