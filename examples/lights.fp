// A controller: traffic lights with a button for those on foot. One call is one tick.
//
// In place: everything is a scalar, so there is no cell at all, and the stack is one frame.
data light { Red; Amber; Green; Walk }

fip fun tick(now: light, left: int, pressed: bool): (light, int, bool) {
  if left > 0 { (now, left - 1, pressed) } else {
    match now {
      Green -> if pressed { (Amber, 2, True) } else { (Green, 0, False) };
      Amber -> (Red, 1, pressed);
      Red -> if pressed { (Walk, 5, False) } else { (Green, 8, False) };
      Walk -> (Red, 1, False)
    }
  }
}
