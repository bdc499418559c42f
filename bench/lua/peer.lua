-- Lua peer (5.4 and LuaJIT alike): lists and trees as tables. peer.lua WORKLOAD
local text = io.read("*a")
local find, byte, sub, concat = string.find, string.byte, string.sub, table.concat
local at = 1
local function number()
  local _, e, d = find(text, "^[ \n,)]*(%-?%d+)", at)
  at = e + 1
  return tonumber(d)
end

-- in place, as an imperative user writes it
local function reverse(l)
  local acc = nil
  while l do l.next, acc, l = acc, l, l.next end
  return acc
end
local function run_reverse()
  local m, items = number(), {}
  while true do
    local _, e, d = find(text, "^[ \n,]*Cons%((%-?%d+)", at)
    if not e then break end
    at = e + 1
    items[#items + 1] = tonumber(d)
  end
  local l = nil
  for i = #items, 1, -1 do l = { x = items[i], next = l } end
  for _ = 1, m do l = reverse(l) end
  local out, n = {}, #items
  while l do out[#out + 1] = "Cons(" .. l.x .. ", "; l = l.next end
  io.write(concat(out), "Nil", string.rep(")", n), "\n")
end

-- Okasaki's, functional; a node is {red, left, key, right}, Leaf is false
local function node(red, l, k, r) return { red, l, k, r } end
local function balance(red, l, k, r)
  if not red then
    if l and l[1] then
      local ll, lr = l[2], l[4]
      if ll and ll[1] then
        return node(true, node(false, ll[2], ll[3], ll[4]), l[3], node(false, lr, k, r))
      elseif lr and lr[1] then
        return node(true, node(false, ll, l[3], lr[2]), lr[3], node(false, lr[4], k, r))
      end
    end
    if r and r[1] then
      local rl, rr = r[2], r[4]
      if rl and rl[1] then
        return node(true, node(false, l, k, rl[2]), rl[3], node(false, rl[4], r[3], rr))
      elseif rr and rr[1] then
        return node(true, node(false, l, k, rl), r[3], node(false, rr[2], rr[3], rr[4]))
      end
    end
  end
  return node(red, l, k, r)
end
local function ins(t, k)
  if not t then return node(true, false, k, false) end
  local x = t[3]
  if k < x then return balance(t[1], ins(t[2], k), x, t[4]) end
  if k > x then return balance(t[1], t[2], x, ins(t[4], k)) end
  return t
end
local function insert(t, k)
  t = ins(t, k)
  return node(false, t[2], t[3], t[4])
end
local function count(t) if t then return count(t[2]) + 1 + count(t[4]) end return 0 end
local function run_redblack()
  local seed, n, reps = number(), number(), number()
  local t = false
  for _ = 1, reps do
    t = false
    local x = seed
    for _ = 1, n do -- 1103515245 = 16838 * 65536 + 20077; exact in doubles
      x = ((x * 16838) % 32768 * 65536 + x * 20077 + 12345) % 2147483648
      t = insert(t, x)
    end
  end
  local a, b = t, t
  while a and a[2] do a = a[2] end
  while b and b[4] do b = b[4] end
  io.write(("keys %d\nnodes %d\nleast %s\ngreatest %s\n"):format(n, count(t),
    a and ("%d"):format(a[3]) or "none", b and ("%d"):format(b[3]) or "none"))
end

local function parse()
  local _, e, c = find(text, "^[ \n,)]*(%a)", at)
  if c == "L" then at = e + 4; return false end
  at = e + 4
  local l = parse()
  local x = number()
  return { l = l, x = x, r = parse() }
end
local function increment(t) -- in place
  if t then increment(t.l); t.x = t.x + 1; return increment(t.r) end
end
local function run_treemap()
  local m, t = number(), nil
  t = parse()
  for _ = 1, m do increment(t) end
  local out = {}
  local function print_(t)
    if not t then out[#out + 1] = "Leaf"; return end
    out[#out + 1] = "Bin("
    print_(t.l)
    out[#out + 1] = ", " .. t.x .. ", "
    print_(t.r)
    out[#out + 1] = ")"
  end
  print_(t)
  io.write(concat(out), "\n")
end

local floor = math.floor
local function following(x) -- 1103515245 = 16838 * 65536 + 20077; exact in doubles
  return ((x * 16838) % 32768 * 65536 + x * 20077 + 12345) % 2147483648
end
local function read_list()
  local items = {}
  while true do
    local _, e, d = find(text, "^[ \n,)]*Cons%((%-?%d+)", at)
    if not e then break end
    at = e + 1
    items[#items + 1] = tonumber(d)
  end
  local l = nil
  for i = #items, 1, -1 do l = { x = items[i], next = l } end
  return l
end
local function print_list(l)
  local out, n = {}, 0
  while l do n = n + 1; out[n] = ("Cons(%d, "):format(l.x); l = l.next end
  io.write(concat(out), "Nil", string.rep(")", n), "\n")
end

-- in place: runs of one item, then of two, four ..
local function sort(l)
  local width = 1
  while true do
    local p, done, last, merges = l, nil, nil, 0
    while p do
      local q, left, right = p, 0, width
      while left < width and q do q = q.next; left = left + 1 end
      merges = merges + 1
      while left > 0 or (right > 0 and q) do
        local cell
        if left > 0 and (right == 0 or not q or p.x <= q.x) then
          cell, p, left = p, p.next, left - 1
        else
          cell, q, right = q, q.next, right - 1
        end
        if last then last.next = cell else done = cell end
        last = cell
      end
      p = q
    end
    if last then last.next = nil end
    l = done
    if merges <= 1 then return l end
    width = width * 2
  end
end
local function run_mergesort()
  local m = number()
  local l = read_list()
  for _ = 1, m do
    local p = l
    while p do p.x = following(p.x); p = p.next end
    l = sort(l)
  end
  print_list(l)
end

local function splay(t, k)
  local path, d = {}, 0
  while t do
    d = d + 1
    path[d] = t
    if k == t.x then break end
    if k < t.x then t = t.l else t = t.r end
  end
  if d == 0 then return nil end
  local x = path[d]
  while d > 2 do
    local p, g = path[d - 1], path[d - 2]
    if g.l == p then
      if p.l == x then g.l = p.r; p.r = g; p.l = x.r; x.r = p
      else p.r = x.l; x.l = p; g.l = x.r; x.r = g end
    elseif p.r == x then g.r = p.l; p.l = g; p.r = x.l; x.l = p
    else p.l = x.r; x.r = p; g.r = x.l; x.l = g end
    d = d - 2
    if d > 1 then
      local q = path[d - 1]
      if q.l == g then q.l = x else q.r = x end
    end
  end
  if d == 2 then
    local p = path[1]
    if p.l == x then p.l = x.r; x.r = p else p.r = x.l; x.l = p end
  end
  return x
end
local function parse_nodes()
  local _, e, c = find(text, "^[ \n,)]*(%a)", at)
  if c == "L" then at = e + 4; return nil end
  at = e + 5
  local l = parse_nodes()
  local x = number()
  return { l = l, x = x, r = parse_nodes() }
end
local function run_splay()
  local m, x = number(), number()
  local t = parse_nodes()
  for _ = 1, m do
    x = following(x)
    t = splay(t, floor(x / 65536) % 8192)
  end
  local out = {}
  local function show(t)
    if not t then out[#out + 1] = "Leaf"; return end
    out[#out + 1] = "Node("
    show(t.l)
    out[#out + 1] = (", %d, "):format(t.x)
    show(t.r)
    out[#out + 1] = ")"
  end
  show(t)
  io.write(concat(out), "\n")
end

local function join(a, b)
  if not a then return b end
  if not b then return a end
  if a.x <= b.x then b.next = a.child; a.child = b; return a end
  a.next = b.child; b.child = a
  return b
end
local function pop(h)
  local c, done, heap = h.child, nil, nil
  while c do
    local a, b = c, c.next
    c = b and b.next
    a.next = nil
    if b then b.next = nil end
    local pair = join(a, b)
    pair.next = done
    done = pair
  end
  while done do
    local more = done.next
    done.next = nil
    heap = join(done, heap)
    done = more
  end
  return heap
end
local function run_pairing()
  local m, items = number(), {}
  while true do
    local _, e, d = find(text, "^[ \n,)]*Item%((%-?%d+), %-?%d+", at)
    if not e then break end
    at = e + 1
    items[#items + 1] = tonumber(d)
  end
  local l = nil
  for i = #items, 1, -1 do l = { x = items[i], child = nil, next = l } end
  for _ = 1, m do
    local h, done = nil, nil
    while l do
      local more = l.next
      l.x, l.child, l.next = following(l.x), nil, nil
      h = join(l, h)
      l = more
    end
    while h do
      local rest = pop(h)
      h.next = done
      done = h
      h = rest
    end
    l = done
  end
  local out, n = {}, 0
  while l do n = n + 1; out[n] = ("Item(%d, 0, "):format(l.x); l = l.next end
  io.write(concat(out), "End", string.rep(")", n), "\n")
end

local function three(unit, x)
  return x + floor(x / 10) + x % 10 * unit + x % unit * 10 + floor(x / unit)
end
local function step(unit, rows)
  local n = #rows
  local first, above = rows[1], rows[n]
  for i = 1, n do
    local x = rows[i]
    local total, rest = three(unit, above) + three(unit, x) + three(unit, rows[i + 1] or first), x
    local y, u = 0, unit
    while u > 0 do
      local near, old = floor(total / u), floor(rest / u)
      y = y * 10 + (near == 3 and 1 or near == 4 and old or 0)
      total, rest, u = total % u, rest % u, floor(u / 10)
    end
    rows[i] = y
    above = x
  end
end
local function run_life()
  local m, unit = number(), number()
  local rows, l = {}, read_list()
  while l do rows[#rows + 1] = l.x; l = l.next end
  for _ = 1, m do step(unit, rows) end
  for i = 1, #rows do rows[i] = ("Cons(%d, "):format(rows[i]) end
  io.write(concat(rows), "Nil", string.rep(")", #rows), "\n")
end

local function parse_code()
  local _, e, c = find(text, "^[ \n,)]*(%a)", at)
  if c == "S" then at = e + 7; return { x = number() } end
  at = e + 5
  local l = parse_code()
  return { l = l, r = parse_code() }
end
local function run_huffman()
  local m, seed = number(), number()
  local root = parse_code()
  local l = read_list()
  for _ = 1, m do
    local bits = nil
    while l do
      local more = l.next
      seed = following(seed)
      l.x, l.next = floor(seed / 65536) % 2, bits
      bits = l
      l = more
    end
    local done, spare, first, c = nil, nil, nil, root
    while bits do
      local more = bits.next
      if bits.x == 0 then c = c.l else c = c.r end
      if not first then first = bits
      else bits.x, bits.next = 0, spare; spare = bits end
      if c.x then
        first.x, first.next = c.x, done
        done, first, c = first, nil, root
      end
      bits = more
    end
    if first then first.x, first.next = 0, spare; spare = first end
    l = done or spare
    if done then
      while done.next do done = done.next end
      done.next = spare
    end
  end
  print_list(l)
end

local workloads = {
  reverse = run_reverse, redblack = run_redblack, treemap = run_treemap, mergesort = run_mergesort,
  splay = run_splay, pairing = run_pairing, life = run_life, huffman = run_huffman,
}
workloads[arg[1]]()
