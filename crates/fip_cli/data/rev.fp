data ints { Nil; Cons(int, ints) }
fip fun rev(xs: ints, acc: ints): ints {
  match! xs { Nil -> acc; Cons(x, t) -> rev(t, Cons(x, acc)) }
}
