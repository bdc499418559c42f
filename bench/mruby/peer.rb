# mruby peer: linked nodes changed in place; the red-black tree Okasaki's. peer.rb WORKLOAD
class Cell
  attr_accessor :x, :nxt
  def initialize(x, nxt)
    @x = x
    @nxt = nxt
  end
end

class Bin
  attr_accessor :l, :x, :r
  def initialize(l, x, r)
    @l = l
    @x = x
    @r = r
  end
end

# mruby has no regular expressions: bytes are walked
class Reader
  def initialize(s)
    @b = s.bytes
    @n = @b.size
    @at = 0
  end

  def blank
    while @at < @n
      c = @b[@at]
      break unless c == 32 || c == 10 || c == 44 || c == 41
      @at += 1
    end
    @b[@at]
  end

  def skip(n)
    @at += n
  end

  def number
    neg = blank == 45
    @at += 1 if neg
    v = 0
    while @at < @n
      c = @b[@at]
      break if c < 48 || c > 57
      v = v * 10 + c - 48
      @at += 1
    end
    neg ? -v : v
  end

  def tree
    if blank == 76
      @at += 4
      return nil
    end
    @at += 4
    l = tree
    x = number
    Bin.new(l, x, tree)
  end

  def nodes
    if blank == 76
      @at += 4
      return nil
    end
    @at += 5
    l = nodes
    x = number
    Bin.new(l, x, nodes)
  end

  def code
    if blank == 83
      @at += 7
      return Bin.new(nil, number, nil)
    end
    @at += 5
    l = code
    Bin.new(l, 0, code)
  end

  def items(letter)
    found = []
    while blank == letter
      @at += 5
      found << number
      number if letter == 73
    end
    found
  end
end

def reverse(l)
  acc = nil
  while l
    t = l.nxt
    l.nxt = acc
    acc = l
    l = t
  end
  acc
end

def run_reverse(r)
  m = r.number
  items = []
  while r.blank == 67
    r.skip(5)
    items << r.number
  end
  l = nil
  i = items.size
  while i > 0
    i -= 1
    l = Cell.new(items[i], l)
  end
  m.times { l = reverse(l) }
  out = []
  while l
    out << "Cons(#{l.x}, "
    l = l.nxt
  end
  print out.join, "Nil", ")" * items.size, "\n"
end

# a node is [red, left, key, right], Leaf is nil
def balance(red, l, k, r)
  unless red
    if l && l[0]
      a = l[1]
      b = l[3]
      if a && a[0]
        return [true, [false, a[1], a[2], a[3]], l[2], [false, b, k, r]]
      elsif b && b[0]
        return [true, [false, a, l[2], b[1]], b[2], [false, b[3], k, r]]
      end
    end
    if r && r[0]
      a = r[1]
      b = r[3]
      if a && a[0]
        return [true, [false, l, k, a[1]], a[2], [false, a[3], r[2], b]]
      elsif b && b[0]
        return [true, [false, l, k, a], r[2], [false, b[1], b[2], b[3]]]
      end
    end
  end
  [red, l, k, r]
end

def ins(t, k)
  return [true, nil, k, nil] unless t
  x = t[2]
  if k < x
    balance(t[0], ins(t[1], k), x, t[3])
  elsif k > x
    balance(t[0], t[1], x, ins(t[3], k))
  else
    t
  end
end

def count(t)
  t ? count(t[1]) + 1 + count(t[3]) : 0
end

def run_redblack(r)
  seed = r.number
  n = r.number
  reps = r.number
  t = nil
  reps.times do
    t = nil
    x = seed
    n.times do
      x = (x * 1103515245 + 12345) & 0x7fffffff
      u = ins(t, x)
      t = [false, u[1], u[2], u[3]]
    end
  end
  a = b = t
  a = a[1] while a && a[1]
  b = b[3] while b && b[3]
  puts "keys #{n}", "nodes #{count(t)}", "least #{a ? a[2] : 'none'}", "greatest #{b ? b[2] : 'none'}"
end

def increment(t)
  while t
    increment(t.l)
    t.x += 1
    t = t.r
  end
end

def show(t, out)
  unless t
    out << "Leaf"
    return
  end
  out << "Bin("
  show(t.l, out)
  out << ", #{t.x}, "
  show(t.r, out)
  out << ")"
end

def run_treemap(r)
  m = r.number
  t = r.tree
  m.times { increment(t) }
  out = []
  show(t, out)
  print out.join, "\n"
end

def following(x)
  (x * 1103515245 + 12345) & 0x7fffffff
end

def list_of(items)
  l = nil
  i = items.size
  while i > 0
    i -= 1
    l = Cell.new(items[i], l)
  end
  l
end

def print_list(l)
  out = []
  while l
    out << "Cons(#{l.x}, "
    l = l.nxt
  end
  print out.join, "Nil", ")" * out.size, "\n"
end

# runs of one item, then of two, four ..
def sort(l)
  width = 1
  while true
    p = l
    done = last = nil
    merges = 0
    while p
      q = p
      left = 0
      right = width
      while left < width && q
        q = q.nxt
        left += 1
      end
      merges += 1
      while left > 0 || (right > 0 && q)
        if left > 0 && (right == 0 || !q || p.x <= q.x)
          cell = p
          p = p.nxt
          left -= 1
        else
          cell = q
          q = q.nxt
          right -= 1
        end
        if last
          last.nxt = cell
        else
          done = cell
        end
        last = cell
      end
      p = q
    end
    last.nxt = nil if last
    l = done
    return l if merges <= 1
    width *= 2
  end
end

def run_mergesort(r)
  m = r.number
  l = list_of(r.items(67))
  m.times do
    p = l
    while p
      p.x = following(p.x)
      p = p.nxt
    end
    l = sort(l)
  end
  print_list(l)
end

def splay(t, k)
  path = []
  while t
    path << t
    break if k == t.x
    t = k < t.x ? t.l : t.r
  end
  return nil if path.empty?
  x = path.pop
  while path.size > 1
    p = path.pop
    g = path.pop
    if g.l.equal?(p)
      if p.l.equal?(x)
        g.l = p.r
        p.r = g
        p.l = x.r
        x.r = p
      else
        p.r = x.l
        x.l = p
        g.l = x.r
        x.r = g
      end
    elsif p.r.equal?(x)
      g.r = p.l
      p.l = g
      p.r = x.l
      x.l = p
    else
      p.l = x.r
      x.r = p
      g.r = x.l
      x.l = g
    end
    q = path[-1]
    if q
      if q.l.equal?(g)
        q.l = x
      else
        q.r = x
      end
    end
  end
  p = path.pop
  if p
    if p.l.equal?(x)
      p.l = x.r
      x.r = p
    else
      p.r = x.l
      x.l = p
    end
  end
  x
end

def show_nodes(t, out)
  unless t
    out << "Leaf"
    return
  end
  out << "Node("
  show_nodes(t.l, out)
  out << ", #{t.x}, "
  show_nodes(t.r, out)
  out << ")"
end

def run_splay(r)
  m = r.number
  x = r.number
  t = r.nodes
  m.times do
    x = following(x)
    t = splay(t, (x >> 16) % 8192)
  end
  out = []
  show_nodes(t, out)
  print out.join, "\n"
end

class Heap
  attr_accessor :x, :child, :nxt
  def initialize(x, nxt)
    @x = x
    @child = nil
    @nxt = nxt
  end
end

def link(a, b)
  return b unless a
  return a unless b
  if a.x <= b.x
    b.nxt = a.child
    a.child = b
    a
  else
    a.nxt = b.child
    b.child = a
    b
  end
end

def least_out(h)
  c = h.child
  done = heap = nil
  while c
    a = c
    b = c.nxt
    c = b ? b.nxt : nil
    a.nxt = nil
    b.nxt = nil if b
    pair = link(a, b)
    pair.nxt = done
    done = pair
  end
  while done
    more = done.nxt
    done.nxt = nil
    heap = link(done, heap)
    done = more
  end
  heap
end

def run_pairing(r)
  m = r.number
  items = r.items(73)
  l = nil
  i = items.size
  while i > 0
    i -= 1
    l = Heap.new(items[i], l)
  end
  m.times do
    h = done = nil
    while l
      more = l.nxt
      l.x = following(l.x)
      l.child = nil
      l.nxt = nil
      h = link(l, h)
      l = more
    end
    while h
      rest = least_out(h)
      h.nxt = done
      done = h
      h = rest
    end
    l = done
  end
  out = []
  while l
    out << "Item(#{l.x}, 0, "
    l = l.nxt
  end
  print out.join, "End", ")" * out.size, "\n"
end

def three(unit, x)
  x + x.div(10) + x % 10 * unit + x % unit * 10 + x.div(unit)
end

def step(unit, rows)
  first = rows[0]
  above = rows[-1]
  n = rows.size
  n.times do |i|
    x = rest = rows[i]
    below = i + 1 < n ? rows[i + 1] : first
    total = three(unit, above) + three(unit, x) + three(unit, below)
    y = 0
    u = unit
    while u > 0
      near = total.div(u)
      old = rest.div(u)
      y = y * 10 + (near == 3 ? 1 : near == 4 ? old : 0)
      total %= u
      rest %= u
      u = u.div(10)
    end
    rows[i] = y
    above = x
  end
end

def run_life(r)
  m = r.number
  unit = r.number
  rows = r.items(67)
  m.times { step(unit, rows) unless rows.empty? }
  print rows.map { |x| "Cons(#{x}, " }.join, "Nil", ")" * rows.size, "\n"
end

def run_huffman(r)
  m = r.number
  seed = r.number
  root = r.code
  l = list_of(r.items(67))
  m.times do
    bits = nil
    while l
      more = l.nxt
      seed = following(seed)
      l.x = (seed >> 16) % 2
      l.nxt = bits
      bits = l
      l = more
    end
    done = spare = first = nil
    c = root
    while bits
      more = bits.nxt
      c = bits.x == 0 ? c.l : c.r
      if first
        bits.x = 0
        bits.nxt = spare
        spare = bits
      else
        first = bits
      end
      unless c.l
        first.x = c.x
        first.nxt = done
        done = first
        first = nil
        c = root
      end
      bits = more
    end
    if first
      first.x = 0
      first.nxt = spare
      spare = first
    end
    l = done || spare
    if done
      done = done.nxt while done.nxt
      done.nxt = spare
    end
  end
  print_list(l)
end

r = Reader.new($stdin.read)
case ARGV[0]
when "reverse" then run_reverse(r)
when "redblack" then run_redblack(r)
when "treemap" then run_treemap(r)
when "mergesort" then run_mergesort(r)
when "splay" then run_splay(r)
when "pairing" then run_pairing(r)
when "life" then run_life(r)
else run_huffman(r)
end
