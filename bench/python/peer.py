# Python peer: linked nodes changed in place; the red-black tree is Okasaki's. peer.py WORKLOAD
import re
import sys

sys.setrecursionlimit(20000)
text = sys.stdin.read()


class Cell:
    __slots__ = ("x", "next")

    def __init__(self, x, next):
        self.x = x
        self.next = next


def reverse(l):
    acc = None
    while l is not None:
        t = l.next
        l.next = acc
        acc = l
        l = t
    return acc


def run_reverse():
    head, _, rest = text.partition("\n")
    items = [int(d) for d in re.findall(r"Cons\((-?\d+)", rest)]
    l = None
    for x in reversed(items):
        l = Cell(x, l)
    for _ in range(int(head)):
        l = reverse(l)
    out = []
    while l is not None:
        out.append(f"Cons({l.x}, ")
        l = l.next
    sys.stdout.write("".join(out) + "Nil" + ")" * len(items) + "\n")


# a node is (red, left, key, right), Leaf is None
def balance(red, l, k, r):
    if not red:
        if l is not None and l[0]:
            _, a, x, b = l
            if a is not None and a[0]:
                return (True, (False, a[1], a[2], a[3]), x, (False, b, k, r))
            if b is not None and b[0]:
                return (True, (False, a, x, b[1]), b[2], (False, b[3], k, r))
        if r is not None and r[0]:
            _, a, x, b = r
            if a is not None and a[0]:
                return (True, (False, l, k, a[1]), a[2], (False, a[3], x, b))
            if b is not None and b[0]:
                return (True, (False, l, k, a), x, (False, b[1], b[2], b[3]))
    return (red, l, k, r)


def ins(t, k):
    if t is None:
        return (True, None, k, None)
    red, l, x, r = t
    if k < x:
        return balance(red, ins(l, k), x, r)
    if k > x:
        return balance(red, l, x, ins(r, k))
    return t


def count(t):
    return 0 if t is None else count(t[1]) + 1 + count(t[3])


def run_redblack():
    seed, n, reps = map(int, text.split())
    t = None
    for _ in range(reps):
        t = None
        x = seed
        for _ in range(n):
            x = (x * 1103515245 + 12345) & 0x7FFFFFFF
            _, l, k, r = ins(t, x)
            t = (False, l, k, r)
    a = b = t
    while a and a[1]:
        a = a[1]
    while b and b[3]:
        b = b[3]
    print(f"keys {n}\nnodes {count(t)}\nleast {a[2] if a else 'none'}\ngreatest {b[2] if b else 'none'}")


class Bin:
    __slots__ = ("l", "x", "r")

    def __init__(self, l, x, r):
        self.l = l
        self.x = x
        self.r = r


def increment(t):
    while t is not None:
        increment(t.l)
        t.x += 1
        t = t.r


def run_treemap():
    head, _, rest = text.partition("\n")
    tokens = iter(re.findall(r"Bin|Leaf|-?\d+", rest))

    def parse():
        if next(tokens) == "Leaf":
            return None
        l = parse()
        x = int(next(tokens))
        return Bin(l, x, parse())

    t = parse()
    for _ in range(int(head)):
        increment(t)
    out = []

    def show(t):
        if t is None:
            out.append("Leaf")
            return
        out.append("Bin(")
        show(t.l)
        out.append(f", {t.x}, ")
        show(t.r)
        out.append(")")

    show(t)
    sys.stdout.write("".join(out) + "\n")


def following(x):
    return (x * 1103515245 + 12345) & 0x7FFFFFFF


def read_list(rest):
    l = None
    for x in reversed(re.findall(r"Cons\((-?\d+)", rest)):
        l = Cell(int(x), l)
    return l


def print_list(l):
    out = []
    while l is not None:
        out.append(f"Cons({l.x}, ")
        l = l.next
    sys.stdout.write("".join(out) + "Nil" + ")" * len(out) + "\n")


def sort(l):
    width = 1
    while True:
        p, done, end, merges = l, None, None, 0
        while p is not None:
            q, left, right = p, 0, width
            while left < width and q is not None:
                q = q.next
                left += 1
            merges += 1
            while left or (right and q is not None):
                if left and (not right or q is None or p.x <= q.x):
                    cell, p = p, p.next
                    left -= 1
                else:
                    cell, q = q, q.next
                    right -= 1
                if end is None:
                    done = cell
                else:
                    end.next = cell
                end = cell
            p = q
        if end is not None:
            end.next = None
        l = done
        if merges <= 1:
            return l
        width *= 2


def run_mergesort():
    head, _, rest = text.partition("\n")
    l = read_list(rest)
    for _ in range(int(head)):
        p = l
        while p is not None:
            p.x = following(p.x)
            p = p.next
        l = sort(l)
    print_list(l)


def splay(t, k):
    path = []
    while t is not None:
        path.append(t)
        if k == t.x:
            break
        t = t.l if k < t.x else t.r
    if not path:
        return None
    x = path.pop()
    while len(path) > 1:
        p = path.pop()
        g = path.pop()
        if g.l is p:
            if p.l is x:
                g.l, p.r, p.l, x.r = p.r, g, x.r, p
            else:
                p.r, x.l, g.l, x.r = x.l, p, x.r, g
        elif p.r is x:
            g.r, p.l, p.r, x.l = p.l, g, x.l, p
        else:
            p.l, x.r, g.r, x.l = x.r, p, x.l, g
        if path:
            q = path[-1]
            if q.l is g:
                q.l = x
            else:
                q.r = x
    if path:
        p = path.pop()
        if p.l is x:
            p.l, x.r = x.r, p
        else:
            p.r, x.l = x.l, p
    return x


def run_splay():
    m, x, rest = text.split("\n", 2)
    tokens = iter(re.findall(r"Node|Leaf|-?\d+", rest))

    def parse():
        if next(tokens) == "Leaf":
            return None
        l = parse()
        x = int(next(tokens))
        return Bin(l, x, parse())

    t, x = parse(), int(x)
    for _ in range(int(m)):
        x = following(x)
        t = splay(t, x // 65536 % 8192)
    out = []

    def show(t):
        if t is None:
            out.append("Leaf")
            return
        out.append("Node(")
        show(t.l)
        out.append(f", {t.x}, ")
        show(t.r)
        out.append(")")

    show(t)
    sys.stdout.write("".join(out) + "\n")


class Heap:
    __slots__ = ("x", "child", "next")

    def __init__(self, x, next):
        self.x = x
        self.child = None
        self.next = next


def join(a, b):
    if a is None:
        return b
    if b is None:
        return a
    if a.x <= b.x:
        b.next, a.child = a.child, b
        return a
    a.next, b.child = b.child, a
    return b


def pop(h):
    c, done, heap = h.child, None, None
    while c is not None:
        a, b = c, c.next
        c = None if b is None else b.next
        a.next = None
        if b is not None:
            b.next = None
        pair = join(a, b)
        pair.next = done
        done = pair
    while done is not None:
        more = done.next
        done.next = None
        heap = join(done, heap)
        done = more
    return heap


def run_pairing():
    head, _, rest = text.partition("\n")
    l = None
    for x in reversed(re.findall(r"Item\((-?\d+)", rest)):
        l = Heap(int(x), l)
    for _ in range(int(head)):
        h = done = None
        while l is not None:
            more = l.next
            l.x, l.child, l.next = following(l.x), None, None
            h = join(l, h)
            l = more
        while h is not None:
            rest = pop(h)
            h.next = done
            done = h
            h = rest
        l = done
    out = []
    while l is not None:
        out.append(f"Item({l.x}, 0, ")
        l = l.next
    sys.stdout.write("".join(out) + "End" + ")" * len(out) + "\n")


def three(unit, x):
    return x + x // 10 + x % 10 * unit + x % unit * 10 + x // unit


def step(unit, rows):
    first, above, n = rows[0], rows[-1], len(rows)
    for i in range(n):
        x = rest = rows[i]
        below = rows[i + 1] if i + 1 < n else first
        total, y, u = three(unit, above) + three(unit, x) + three(unit, below), 0, unit
        while u:
            near, old = total // u, rest // u
            y = y * 10 + (1 if near == 3 else old if near == 4 else 0)
            total %= u
            rest %= u
            u //= 10
        rows[i] = y
        above = x


def run_life():
    m, unit, rest = text.split("\n", 2)
    rows = [int(x) for x in re.findall(r"Cons\((-?\d+)", rest)]
    for _ in range(int(m)):
        step(int(unit), rows)
    sys.stdout.write("".join(f"Cons({x}, " for x in rows) + "Nil" + ")" * len(rows) + "\n")


def run_huffman():
    m, seed, code, rest = text.split("\n", 3)
    tokens = iter(re.findall(r"Symbol|Fork|-?\d+", code))

    def parse():
        if next(tokens) == "Symbol":
            return Bin(None, int(next(tokens)), None)
        l = parse()
        return Bin(l, 0, parse())

    root, l, seed = parse(), read_list(rest), int(seed)
    for _ in range(int(m)):
        bits = None
        while l is not None:
            more = l.next
            seed = following(seed)
            l.x, l.next = seed // 65536 % 2, bits
            bits = l
            l = more
        done = spare = first = None
        c = root
        while bits is not None:
            more = bits.next
            c = c.r if bits.x else c.l
            if first is None:
                first = bits
            else:
                bits.x, bits.next = 0, spare
                spare = bits
            if c.l is None:
                first.x, first.next = c.x, done
                done, first, c = first, None, root
            bits = more
        if first is not None:
            first.x, first.next = 0, spare
            spare = first
        l = done or spare
        if done is not None:
            while done.next is not None:
                done = done.next
            done.next = spare
    print_list(l)


globals()[f"run_{sys.argv[1]}"]()
