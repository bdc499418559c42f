// A scheduler's queue: jobs take turns of a quantum each, and who is done leaves.
//
// In place: a job's cell is in one of three lists, those that wait (two lists, as in `queue.fp`) and those that are
// done, last first. Nothing else has cells, so the number of jobs is all that must be provided for.
data jobs { End; Job(int, int, jobs) }   // number, work that is left
data state { State(jobs, jobs, jobs) }   // first first; last first; done

fip fun run(turns: int, quantum: int, s: state): state {
  if turns <= 0 { s } else { let t = turn(quantum, s); run(turns - 1, quantum, t) }
}

fip fun turn(quantum: int, s: state): state {
  match! s {
    State(Job(id, left, front), back, done) ->
      if left <= quantum { State(front, back, Job(id, 0, done)) }
      else { State(front, Job(id, left - quantum, back), done) };
    State(End, Job(id, left, back), done) ->
      let front = turned(Job(id, left, back), End);
      turn(quantum, State(front, End, done));
    State(End, End, done) -> State(End, End, done)
  }
}

fip fun turned(xs: jobs, rest: jobs): jobs {
  match! xs { End -> rest; Job(id, left, others) -> turned(others, Job(id, left, rest)) }
}

// A new job brings its cell as a credit; one that is done hands it out.
fip +3 fun add(id: int, work: int, s: state): state {
  match! s { State(front, back, done) -> State(front, Job(id, work, back), done) }
}

fip fun collect(s: state): (state, jobs) {
  match! s { State(front, back, done) -> (State(front, back, End), done) }
}
