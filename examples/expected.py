#!/usr/bin/env python3
"""Computes what the programs of the gallery print, by other means, and compares.

    examples/expected.py [--program PATH] [--inputs N] [NAME ..]

Each program runs on its input in this folder and on N further ones, drawn from a fixed seed (more where a program has
many cases), and some with a second entry. Here lists are Python's lists, sets its sets, and trees are built by textbook
recursion or by rotations. The replies of the two sessions are computed from the same functions. No program has more
than 60 lines. The status is 0 exactly where nothing differs.
"""
import argparse
import itertools
import os
import pathlib
import random
import re
import subprocess
import sys
import tempfile
from collections import deque

HERE = pathlib.Path(__file__).resolve().parent
LINES = 60
CALLS = 1_000_000


# ---- values: a number, or a tuple of a constructor's name and its fields ----
def parse(text):
    tokens = re.findall(r"-?\d+|\w+|[(),]", text)
    at = 0

    def value():
        nonlocal at
        word = tokens[at]
        at += 1
        if word.lstrip("-").isdigit():
            return int(word)
        fields = []
        if tokens[at : at + 1] == ["("]:
            while tokens[at] in "(,":
                at += 1
                fields.append(value())
            at += 1
        return (word, *fields)

    found = value()
    assert at == len(tokens), text
    return found


def show(value):
    if isinstance(value, int):
        return str(value)
    name, *fields = value
    return name + ("(" + ", ".join(map(show, fields)) + ")" if fields else "")


def items(value):
    """The first fields of a list; of a list whose cells have three fields, the first two."""
    found = []
    while len(value) > 1:
        found.append(value[1] if len(value) == 3 else value[1:-1])
        value = value[-1]
    return found


def chain(cell, end, found):
    value = (end,)
    for x in reversed(list(found)):
        value = (cell, *(x if isinstance(x, tuple) else (x,)), value)
    return value


def cons(found):
    return chain("Cons", "Nil", found)


def truth(flag):
    return ("True",) if flag else ("False",)


NIL, NONE, LEAF = ("Nil",), ("None",), ("Leaf",)
PAD3, PAD4 = ("Cell", 0, 0, 0), ("Cell", 0, 0, 0, 0)


def inorder(tree, item, left, right):
    if len(tree) == 1:
        return []
    return inorder(tree[left], item, left, right) + [tree[item]] + inorder(tree[right], item, left, right)


# ---- lists ----
def sorted_list(xs):
    return (cons(sorted(items(xs))),)


def pop_front(front, back, otherwise):
    """The items first to last, and how they are divided afterwards."""
    if front:
        return front[1:], back, front[0], True
    if back:
        return back[::-1][1:], [], back[-1], True
    return [], [], otherwise, False


def queue_pop(q, otherwise):
    front, back, x, some = pop_front(items(q[1]), items(q[2]), otherwise)
    return ("Queue", cons(front), cons(back)), x, ("Spare", 0, 0) if some else NONE


def bankers_pop(q, otherwise):
    order = items(q[2]) + items(q[4])[::-1]
    if not items(q[2]):
        return q, otherwise, NONE
    if q[3] <= q[1] - 1:
        return ("Queue", q[1] - 1, cons(items(q[2])[1:]), q[3], q[4]), order[0], ("Spare", 0, 0)
    return ("Queue", len(order) - 1, cons(order[1:]), 0, NIL), order[0], ("Spare", 0, 0)


def bankers_push(x, q):
    order = items(q[2]) + items(q[4])[::-1] + [x]
    if q[3] + 1 <= q[1]:
        return (("Queue", q[1], q[2], q[3] + 1, cons([x] + items(q[4]))),)
    return (("Queue", len(order), cons(order), 0, NIL),)


def buffer_put(x, b):
    ins, outs, free = map(items, b[1:])
    slots = lambda xs: chain("Slot", "End", xs)
    if not free:
        return b, truth(False)
    return ("Buffer", slots([x] + ins), slots(outs), slots(free[1:])), truth(True)


def buffer_get(b, otherwise):
    ins, outs, free = map(items, b[1:])
    slots = lambda xs: chain("Slot", "End", xs)
    if not ins and not outs:
        return b, otherwise, truth(False)
    if not outs:
        ins, outs = [], ins[::-1]
    return ("Buffer", slots(ins), slots(outs[1:]), slots([0] + free)), outs[0], truth(True)


def decode(xs, spare):
    """As many items of a run are single ones as there are cells; the rest stays one run."""
    single, cells = [], len(items(spare))
    for x, n in items(xs):
        taken = min(max(n - 1, 0), cells)
        cells -= taken
        single += [(x, 1)] * taken + [(x, n - taken)]
    return chain("Run", "End", single), chain("Run", "End", items(spare)[len(items(spare)) - cells :])


def encode(xs):
    runs = [(x, sum(n for _, n in group)) for x, group in itertools.groupby(items(xs), lambda run: run[0])]
    spare = [(0, 0)] * (len(items(xs)) - len(runs))
    return chain("Run", "End", runs), chain("Run", "End", spare)


def union(xs, ys):
    both = set(items(xs)) | set(items(ys))
    return cons(sorted(both)), cons([0] * (len(items(xs)) + len(items(ys)) - len(both)))


def poly(p, q):
    total = {}
    for a, n in items(p) + items(q):
        total[n] = total.get(n, 0) + a
    terms = [(a, n) for n, a in sorted(total.items(), reverse=True) if a]
    spare = [(0, 0)] * (len(items(p)) + len(items(q)) - len(terms))
    return chain("Term", "Zero", terms), chain("Term", "Zero", spare)


def zip_right(z):
    before, after = items(z[1]), items(z[2])
    return (("Zip", cons(after[:1] + before), cons(after[1:])),)


# ---- machines ----
def automaton(table, state, word):
    rows, way = {}, []
    while len(table) > 1:
        rows.setdefault(table[1:3], table[3])
        table = table[4]
    for sign in items(word):
        state = rows.get((state, sign), -1)
        way.append(state)
    return cons(way), state


def stack_machine(ops, stack, free):
    stack, free = items(stack), items(free)
    cells = lambda xs: chain("Cell", "End", xs)
    fault = "Fine"
    while ops[0] != "Stop":
        if ops[0] == "Push":
            if not free:
                fault = "NoCell"
                break
            free.pop(0)
            stack.insert(0, ops[1])
        else:
            if len(stack) < 2:
                fault = "NoOperand"
                break
            a, b = stack.pop(0), stack.pop(0)
            stack.insert(0, a + b if ops[0] == "Add" else a * b)
            free.insert(0, 0)
        ops = ops[-1]
    return cells(stack), cells(free), (fault,)


def expression(e):
    if e[0] == "Num":
        return e, e[1]
    _, op, left, _, right = e
    left, m = expression(left)
    right, n = expression(right)
    value = {"Add": m + n, "Sub": m - n, "Mul": m * n}[op[0]]
    return ("Node", op, left, value, right), value


def turned(live, tall, wide):
    """The fields that are alive after one more turn, on a torus."""
    near = {}
    for i, j in live:
        for a, b in itertools.product((-1, 0, 1), repeat=2):
            if (a, b) != (0, 0):
                place = ((i + a) % tall, (j + b) % wide)
                near[place] = near.get(place, 0) + 1
    return frozenset(p for p, n in near.items() if n == 3 or n == 2 and p in live)


def life(turns, unit, xs):
    rows, wide = items(xs), len(str(unit))
    live = frozenset((i, j) for i, row in enumerate(rows) for j, c in enumerate(str(row).zfill(wide)) if c == "1")
    tall, before = len(rows), {}
    while live not in before and len(before) < turns:
        before[live] = len(before)
        live = turned(live, tall, wide)
    # where it has been so before, the turns in between come again and again
    if live in before:
        first, states = before[live], [*before]
        live = states[first + (turns - len(states)) % (len(states) - first)]
    return (cons(int("".join("01"[(i, j) in live] for j in range(wide))) for i in range(tall)),)


def words_of(code, before=""):
    if code[0] == "Symbol":
        return {before: code[1]}
    return {**words_of(code[1], before + "0"), **words_of(code[2], before + "1")}


def huffman(code, bits):
    words, bits, done, word = words_of(code), items(bits), [], ""
    for bit in bits:
        word += str(bit)
        if word in words:
            done.append(words[word])
            word = ""
    return cons(done), cons([0] * (len(bits) - len(done)))


def scheduler(turns, quantum, s):
    order, done = deque(items(s[1]) + items(s[2])[::-1]), items(s[3])
    for _ in range(turns):
        if order:
            job, left = order.popleft()
            if left <= quantum:
                done.insert(0, (job, 0))
            else:
                order.append((job, left - quantum))
    listed = lambda found: chain("Job", "End", found)
    return (("State", listed(order), ("End",), listed(done)),)


def scheduler_view(s):
    """How the jobs that wait are divided among two lists is no part of the comparison."""
    return ("State", items(s[1]) + items(s[2])[::-1], items(s[3]))


def lights(now, left, pressed):
    if left > 0:
        return now, left - 1, pressed
    button = pressed[0] == "True"
    after = {"Green": ("Amber", 2, True) if button else ("Green", 0, False), "Amber": ("Red", 1, button),
             "Red": ("Walk", 5, False) if button else ("Green", 8, False), "Walk": ("Red", 1, False)}
    light, ticks, flag = after[now[0]]
    return (light,), ticks, truth(flag)


def controller_read(now, s):
    _, mode, wanted, last, bad = s
    jump = abs(now - last) > 20
    if jump and bad + 1 >= 3:
        return ("State", ("Fault",), wanted, last, 3), 0
    if not jump:
        mode = ("Heating",) if now < wanted - 1 else ("Off",) if now > wanted + 1 else mode
        last, bad = now, -1
    missing = wanted - last
    power = 100 if missing > 9 else 10 if missing < 1 else 10 * missing
    return ("State", mode, wanted, last, bad + 1), power if mode[0] == "Heating" else 0


# ---- trees ----
def grow(t):
    return t if t == LEAF else ("Node", grow(t[1]), t[2] + 1, grow(t[3]))


def store_put(key, value, t):
    """The tree with the key, and whether it is a new one."""
    if t == LEAF:
        return ("Node", LEAF, key, value, LEAF), True
    _, l, k, v, r = t
    if key == k:
        return ("Node", l, k, value, r), False
    if key < k:
        l, new = store_put(key, value, l)
    else:
        r, new = store_put(key, value, r)
    return ("Node", l, k, v, r), new


def store_set(key, value, t, cell):
    put, new = store_put(key, value, t)
    if not new:
        return put, cell, truth(True)
    return (put, NONE, truth(True)) if cell != NONE else (t, NONE, truth(False))


def store_get(key, t, otherwise):
    while t != LEAF and t[2] != key:
        t = t[1] if key < t[2] else t[4]
    return (otherwise if t == LEAF else t[3],)


def balance(c, l, k, r):
    """Okasaki's four cases."""
    red = lambda t: t != LEAF and t[1] == ("Red",)
    if c == ("Black",):
        for a, x, b, y, d, z, e in (
            *([(*l[2][2:], l[3], l[4], k, r)] if red(l) and red(l[2]) else []),
            *([(l[2], l[3], *l[4][2:], k, r)] if red(l) and red(l[4]) else []),
            *([(l, k, *r[2][2:], r[3], r[4])] if red(r) and red(r[2]) else []),
            *([(l, k, r[2], r[3], *r[4][2:])] if red(r) and red(r[4]) else []),
        ):
            return ("Node", ("Red",), ("Node", c, a, x, b), y, ("Node", c, d, z, e))
    return ("Node", c, l, k, r)


def okasaki(t, k):
    def ins(t):
        if t == LEAF:
            return ("Node", ("Red",), LEAF, k, LEAF)
        _, c, l, x, r = t
        return balance(c, ins(l), x, r) if k < x else balance(c, l, x, ins(r)) if k > x else t

    return ("Node", ("Black",), *ins(t)[2:])


def library_insert(t, k, pad):
    there = k in inorder(t, 3, 2, 4)
    if there or pad == ("Pad0",):
        return t, pad, truth(there)
    return okasaki(t, k), ("Pad0",), truth(True)


class Nodes:
    """A search tree of nodes that know the one above, with rotations."""

    def __init__(self, t, item):
        self.item, self.root = item, None
        self.root = self.read(t, None)

    def read(self, t, up):
        if t == LEAF:
            return None
        node = {"up": up, "key": t[self.item], "red": t[1] == ("Red",)}
        node["l"] = self.read(t[self.item - 1], node)
        node["r"] = self.read(t[self.item + 1], node)
        return node

    def side(self, node):
        return "l" if node["up"]["l"] is node else "r"

    def put(self, up, side, node):
        if up is None:
            self.root = node
        else:
            up[side] = node
        if node is not None:
            node["up"] = up

    def raise_over(self, node):
        """The node takes the place of the one above it."""
        up = node["up"]
        side = self.side(node)
        other = "r" if side == "l" else "l"
        top = up["up"]
        self.put(top, top and self.side(up), node)
        self.put(up, side, node[other])
        self.put(node, other, up)

    def search(self, k):
        """The key's node, or the last one on the way to it, and the sides."""
        node, at = self.root, None
        while node is not None:
            at = node
            if k == node["key"]:
                return at, True
            node = node["l" if k < node["key"] else "r"]
        return at, False

    def add(self, k, under):
        node = {"up": under, "key": k, "red": True, "l": None, "r": None}
        self.put(under, under and ("l" if k < under["key"] else "r"), node)
        return node

    def tree(self, colored, node="root"):
        node = self.root if node == "root" else node
        if node is None:
            return LEAF
        color = ((("Red",) if node["red"] else ("Black",)),) if colored else ()
        return ("Node", *color, self.tree(colored, node["l"]), node["key"], self.tree(colored, node["r"]))


def splay(k, t, cell):
    nodes = Nodes(t, 2)
    node, there = nodes.search(k)
    if not there and cell != NONE:
        node, cell = nodes.add(k, node), NONE
    while node is not None and node["up"] is not None:
        up = node["up"]
        if up["up"] is not None:
            nodes.raise_over(up if nodes.side(node) == nodes.side(up) else node)
        nodes.raise_over(node)
    return nodes.tree(False), cell


def redblack(k, t, cell):
    """Four-nodes are split on the way down, as in a tree of two to four sides."""
    nodes = Nodes(t, 3)
    node, under = nodes.root, None

    def mend(node):
        up = node["up"]
        if up is None:
            node["red"] = False
        elif up["red"]:
            top = up["up"]
            if nodes.side(node) != nodes.side(up):
                nodes.raise_over(node)
                up = node
            nodes.raise_over(up)
            up["red"], top["red"] = False, True

    while node is not None:
        kids = node["l"], node["r"]
        if not node["red"] and all(kid and kid["red"] for kid in kids):
            node["red"] = True
            for kid in kids:
                kid["red"] = False
            mend(node)
        if node["key"] == k:
            return nodes.tree(True), cell
        node, under = node["l" if k < node["key"] else "r"], node
    if cell != NONE:
        mend(nodes.add(k, under))
    return nodes.tree(True), NONE


def height(t):
    return 0 if t == LEAF else 1 + max(height(t[2]), height(t[4]))


def avl_node(l, x, r):
    """A node whose tilt is that of the heights; where they differ by two, rotations."""
    turn = height(r) - height(l)
    if turn == 2:
        if height(r[2]) > height(r[4]):
            r = avl_node(r[2][2], r[2][3], avl_node(r[2][4], r[3], r[4]))
        return avl_node(avl_node(l, x, r[2]), r[3], r[4])
    if turn == -2:
        if height(l[4]) > height(l[2]):
            l = avl_node(avl_node(l[2], l[3], l[4][2]), l[4][3], l[4][4])
        return avl_node(l[2], l[3], avl_node(l[4], x, r))
    return ("Node", (("Even", "High", "Low")[turn],), l, x, r)


def avl_put(k, t):
    if t == LEAF:
        return avl_node(LEAF, k, LEAF)
    _, _, l, x, r = t
    return avl_node(avl_put(k, l), x, r) if k < x else avl_node(l, x, avl_put(k, r)) if k > x else t


def avl(k, t, cell):
    if k in inorder(t, 3, 2, 4):
        return t, cell
    return (avl_put(k, t), NONE) if cell != NONE else (t, NONE)


# ---- heaps ----
def leftist_join(a, b):
    if ("Empty",) in (a, b):
        return b if a == ("Empty",) else a
    if a[3] <= b[3]:
        left, x, right = a[2], a[3], leftist_join(a[4], b)
    else:
        left, x, right = b[2], b[3], leftist_join(a, b[4])
    rank = lambda h: h[1] if len(h) > 1 else 0
    if rank(left) < rank(right):
        left, right = right, left
    return ("Node", rank(right) + 1, left, x, right)


def leftist_pop(h, otherwise):
    if h == ("Empty",):
        return h, otherwise, NONE
    return leftist_join(h[2], h[4]), h[3], PAD4


def pairing_join(a, b):
    """A heap is None, or an item with the list of its children."""
    if not a or not b:
        return a or b
    return (a[0], [b] + a[1]) if a[0] <= b[0] else (b[0], [a] + b[1])


def pairing_all(heaps):
    if len(heaps) < 2:
        return heaps[0] if heaps else None
    return pairing_join(pairing_join(heaps[0], heaps[1]), pairing_all(heaps[2:]))


def pairing_read(trees):
    return [(x, pairing_read(children)) for x, children in items(trees)]


def pairing_show(trees):
    return chain("Tree", "Nil", [(x, pairing_show(children)) for x, children in trees])


def pairing_heap(h):
    return ("Heap", h[0], pairing_show(h[1]), 0) if h else ("Empty",)


def pairing_tree(h):
    return (h[1], pairing_read(h[2])) if len(h) > 1 else None


def pairing_pop(h, otherwise):
    if h == ("Empty",):
        return h, otherwise, NONE
    return pairing_heap(pairing_all(pairing_read(h[2]))), h[1], PAD3


# ---- the library's finger tree: its items in order, and how many cells there are ----
def flat(value):
    if isinstance(value, int) or len(value) == 1:
        return []
    return [value[1]] if value[0] == "Item" else [x for field in value[1:] for x in flat(field)]


def cells(value):
    return 0 if isinstance(value, int) or len(value) == 1 else 1 + sum(map(cells, value[1:]))


def finger(x, s, p):
    full, at = 3, s
    while at[0] == "More":
        if at[1][0] != "Three":
            break
        full, at = full + 1, at[2]
    enough = cells(p) >= full
    return [x] * enough + flat(s), cells(s) + cells(p), truth(enough)


def finger_view(s, p, flag):
    return flat(s), cells(s) + cells(p), flag


# ---- further inputs ----
def numbers(r, most=12, low=-9, high=9):
    return [r.randint(low, high) for _ in range(r.randint(0, most))]


def search_tree(r, leaf_item):
    def build(keys):
        if not keys:
            return LEAF
        at = r.randrange(len(keys))
        return ("Node", build(keys[:at]), *leaf_item(keys[at]), build(keys[at + 1 :]))

    return build(sorted(set(numbers(r, 20, 0, 40))))


def grown_by(r, put, tree=LEAF):
    for k in numbers(r, 30, 0, 60):
        tree = put(k, tree)
    return tree


def an_expression(r, deep):
    if deep == 0 or r.random() < 0.2:
        return ("Num", r.randint(-5, 5))
    return ("Node", (r.choice(("Add", "Sub", "Mul")),), an_expression(r, deep - 1), r.randint(0, 9),
            an_expression(r, deep - 1))


def a_code(r, deep):
    if deep == 0 or r.random() < 0.2:
        return ("Symbol", r.randint(1, 9))
    return ("Fork", a_code(r, deep - 1), a_code(r, deep - 1))


def some_ops(r):
    value = ("Stop",)
    for _ in range(r.randint(0, 9)):
        value = r.choice([("Push", r.randint(-4, 4), value), ("Add", value), ("Mul", value)])
    return value


def a_pairing_heap(r):
    heap = None
    for x in numbers(r):
        heap = pairing_join((x, []), heap)
        if heap and r.random() < 0.3:
            heap = pairing_all(heap[1])
    return pairing_heap(heap)


def a_leftist_heap(r):
    heap = ("Empty",)
    for x in numbers(r, 20):
        heap = leftist_join(heap, ("Node", 1, ("Empty",), x, ("Empty",)))
    return heap


def a_bankers_queue(r):
    front = numbers(r)
    back = numbers(r)[: len(front)]
    return ("Queue", len(front), cons(front), len(back), cons(back))


def a_finger_tree(r):
    """Sides of up to three items around an empty middle or around one pair."""
    item = lambda: ("Item", r.randint(0, 9), 0, 0)
    side = lambda n: (("One", item(), 0, 0), ("Two", item(), item(), 0), ("Three", item(), item(), item()))[n]
    middle = r.choice([("Empty",), ("Unit", ("Pair", item(), item(), 0), 0, 0)])
    return r.choice([("Empty",), ("Unit", item(), 0, 0), ("More", side(r.randrange(3)), middle, side(r.randrange(3)))])


def a_finger_spares(r):
    return chain("Pad3", "Done", [(0, 0)] * r.randint(0, 5))


def bins(t):
    return t if t == LEAF else ("Bin", bins(t[1]), t[2], bins(t[3]))


def slots(r):
    return chain("Slot", "End", numbers(r, 3))


def jobs(r):
    return chain("Job", "End", [(r.randint(1, 99), r.randint(1, 9)) for _ in range(r.randint(0, 4))])


def terms(r):
    return chain("Term", "Zero", [(r.choice((-2, -1, 1, 2)), n) for n in range(9, -1, -1) if r.random() < 0.5])


def table_of(r):
    value = ("End",)
    for row in ((a, b, r.randint(0, 2)) for a in range(3) for b in (0, 1) if r.random() < 0.9):
        value = ("Row", *row, value)
    return value


def a_cell(r, cell):
    return r.choice((cell, cell, NONE))


def life_input(r):
    unit = 10 ** r.randint(2, 8)
    wide = len(str(unit))
    rows = ["".join(r.choice("01") for _ in range(wide)) for _ in range(r.randint(3, 8))]
    return r.randint(0, 6), unit, cons(map(int, rows))


# ---- the programs: entry, results on arguments, further arguments; then second entries, and what is compared ----
def whole(*results):
    return results


def ordered(r, most=10, unique=False):
    found = numbers(r, most)
    return cons(sorted(set(found) if unique else found))


GALLERY = {
    "rev": ("rev", lambda xs, acc: (cons(items(xs)[::-1] + items(acc)),),
            lambda r: (cons(numbers(r)), cons(numbers(r)))),
    "map": ("evens", lambda xs: (cons((truth(x % 2 == 0),) for x in items(xs)),), lambda r: (cons(numbers(r)),)),
    "queue": ("pop", queue_pop, lambda r: (("Queue", cons(numbers(r, 2)), cons(numbers(r, 5))), 0)),
    "bankers": ("push", bankers_push, lambda r: (r.randint(0, 9), a_bankers_queue(r))),
    "merge": ("merge", lambda xs, ys: (cons(sorted(items(xs) + items(ys))),), lambda r: (ordered(r), ordered(r))),
    "sort": ("sort", sorted_list, lambda r: (cons(numbers(r, 30)),)),
    "mergesort": ("sort", sorted_list, lambda r: (cons(numbers(r, 40, -99, 99)),)),
    "quicksort": ("sort", sorted_list, lambda r: (cons(numbers(r, 40, -99, 99)),)),
    "runs": ("encode", encode,
             lambda r: (chain("Run", "End", [(r.randint(0, 2), r.randint(1, 3)) for _ in range(r.randint(0, 12))]),)),
    "union": ("union", union, lambda r: (ordered(r, 10, True), ordered(r, 10, True))),
    "poly": ("sum", poly, lambda r: (terms(r), terms(r))),
    "total": ("share", lambda xs: (xs, sum(items(xs))), lambda r: (cons(numbers(r)),)),
    "filter": ("at_least", lambda n, xs, done: (cons(items(done)[::-1] + [x for x in items(xs) if x >= n]),),
               lambda r: (r.randint(-5, 5), cons(numbers(r)), NIL)),
    "buffer": ("put", buffer_put, lambda r: (r.randint(0, 9), ("Buffer", slots(r), slots(r), slots(r)))),
    "treemap": ("grow", lambda t: (grow(t),), lambda r: (search_tree(r, lambda k: (k,)),)),
    "store": ("set", store_set,
              lambda r: (r.randint(0, 40), r.randint(0, 99), search_tree(r, lambda k: (k, 10 * k)), a_cell(r, PAD4))),
    "redblack": ("insert", redblack,
                 lambda r: (r.randint(0, 60), grown_by(r, lambda k, t: redblack(k, t, PAD4)[0]), a_cell(r, PAD4))),
    "splay": ("splay", splay, lambda r: (r.randint(0, 40), search_tree(r, lambda k: (k,)), a_cell(r, PAD3))),
    "avl": ("insert", avl, lambda r: (r.randint(0, 60), grown_by(r, avl_put), a_cell(r, PAD4))),
    "leftist": ("pop", leftist_pop, lambda r: (a_leftist_heap(r), 0)),
    "pairing": ("pop", pairing_pop, lambda r: (a_pairing_heap(r), 0)),
    "automaton": ("run", automaton, lambda r: (table_of(r), 0, cons(numbers(r, 12, 0, 1)))),
    "stack_machine": ("run", stack_machine,
                      lambda r: (some_ops(r), ("End",), chain("Cell", "End", [0] * r.randint(0, 4)))),
    "expression": ("run", lambda e: expression(e), lambda r: (an_expression(r, 5),)),
    "life": ("live", life, life_input),
    "huffman": ("decode", huffman,
                lambda r: (("Fork", a_code(r, 3), a_code(r, 3)), cons(numbers(r, 20, 0, 1)))),
    "scheduler": ("run", scheduler,
                  lambda r: (r.randint(0, 20), r.randint(1, 4), ("State", jobs(r), jobs(r), jobs(r)))),
    "lights": ("tick", lights, lambda r: ((r.choice(("Red", "Amber", "Green", "Walk")),), r.randint(0, 2),
                                          truth(r.random() < 0.5))),
    "controller": ("read", controller_read,
                   lambda r: (r.randint(30, 90), ("State", (r.choice(("Off", "Heating", "Fault")),), r.randint(50, 70),
                                                  r.randint(40, 80), r.randint(0, 3)))),
    "library rbtree": ("insert", library_insert, lambda r: (grown_by(r, lambda k, t: okasaki(t, k)), r.randint(0, 60),
                                                            r.choice((("Pad0",), ("Pad4", 0, 0, 0, 0))))),
    "library finger": ("cons", finger, lambda r: (r.randint(0, 9), a_finger_tree(r), a_finger_spares(r))),
    "library list": ("right", zip_right, lambda r: (("Zip", cons(numbers(r)), cons(numbers(r))),)),
    "library tree": ("increment", lambda t: (bins(grow(t)),), lambda r: (bins(search_tree(r, lambda k: (k,))),)),
}
# Programs of many cases, which few inputs meet.
MANY = {"avl": 8, "redblack": 4, "splay": 4, "library rbtree": 4}
FURTHER = {
    "queue": ("push", lambda x, q: (("Queue", q[1], cons([x] + items(q[2]))),),
              lambda r: (r.randint(0, 9), ("Queue", cons(numbers(r)), cons(numbers(r))))),
    "bankers": ("pop", bankers_pop, lambda r: (a_bankers_queue(r), 0)),
    "buffer": ("get", buffer_get, lambda r: (("Buffer", slots(r), slots(r), slots(r)), 0)),
    "runs": ("decode", decode, lambda r: (
        chain("Run", "End", [(r.randint(0, 2), r.randint(1, 3)) for _ in range(r.randint(0, 5))]),
        chain("Run", "End", [(0, i) for i in range(r.randint(0, 8))]))),
    "store": ("get", store_get, lambda r: (r.randint(0, 40), search_tree(r, lambda k: (k, 10 * k)), -1)),
    "leftist": ("push", lambda x, h: (leftist_join(("Node", 1, ("Empty",), x, ("Empty",)), h),),
                lambda r: (r.randint(-9, 9), a_leftist_heap(r))),
    "pairing": ("push", lambda x, h: (pairing_heap(pairing_join((x, []), pairing_tree(h))),),
                lambda r: (r.randint(-9, 9), a_pairing_heap(r))),
    "scheduler": ("collect", lambda s: (("State", s[1], s[2], ("End",)), s[3]),
                  lambda r: (("State", jobs(r), jobs(r), jobs(r)),)),
    "controller": ("want", lambda wanted, s: (("State", s[1], wanted, *s[3:]),),
                   lambda r: (r.randint(30, 90), ("State", ("Off",), 50, 50, 0))),
    "library rbtree": ("member", lambda t, k: (truth(k in inorder(t, 3, 2, 4)),),
                       lambda r: (grown_by(r, lambda k, t: okasaki(t, k)), r.randint(0, 60))),
    "library list": ("append", lambda xs, ys: (cons(items(xs) + items(ys)),),
                     lambda r: (cons(numbers(r)), cons(numbers(r)))),
}
VIEWS = {"scheduler": lambda s: (scheduler_view(s),), "library finger": finger_view}
SESSIONS = {
    "controller": {"start": lambda wanted: (("State", ("Off",), wanted, wanted, 0),), "read": controller_read,
                   "want": lambda wanted, s: (("State", s[1], wanted, *s[3:]),)},
    "store": {"set": store_set, "get": store_get},
}


# ---- comparison ----
class Comparison:
    def __init__(self, program, folder):
        self.program, self.folder = program, pathlib.Path(folder)
        self.programs = self.inputs = self.differences = 0

    def source(self, name):
        """The program's file; those of the library are printed by the program itself."""
        if not name.startswith("library "):
            return HERE / f"{name}.fp"
        path = self.folder / f"{name.split()[1]}.fp"
        path.write_text(self.run(name.split(), ""))
        return path

    def run(self, words, given):
        done = subprocess.run([self.program, *map(str, words)], input=given, capture_output=True, text=True, timeout=60)
        return done.stdout if done.returncode == 0 else f"status {done.returncode}: {done.stderr}"

    def differ(self, name, given, wanted, printed):
        self.differences += 1
        print(f"{name} on\n{given}  wanted:\n{wanted}\n  printed:\n{printed}")

    def compare(self, name, source, given, row):
        entry, results, _ = row
        self.inputs += 1
        printed = self.run(["exec", source, entry, "--calls", CALLS], given)
        wanted = results(*map(parse, given.splitlines()))
        view = VIEWS.get(name, whole) if row is GALLERY[name] else whole
        try:
            same = view(*map(parse, printed.splitlines())) == (wanted if name == "library finger" else view(*wanted))
        except (AssertionError, IndexError, TypeError):
            same = False
        if not same or view is whole and printed != "".join(show(value) + "\n" for value in wanted):
            self.differ(name, given, wanted, printed)

    def gallery(self, name, inputs):
        self.programs += 1
        source = self.source(name)
        lines = len(source.read_text().splitlines())
        if not name.startswith("library ") and lines > LINES:
            self.differ(name, "its length", LINES, lines)
        given = HERE / f"{name}.txt"
        if given.is_file():
            self.compare(name, source, given.read_text(), GALLERY[name])
        r = random.Random(name)
        rows = [GALLERY[name]] * MANY.get(name, 1) + ([FURTHER[name]] if name in FURTHER else [])
        for row in rows:
            for _ in range(inputs):
                self.compare(name, source, "".join(show(x) + "\n" for x in row[2](r)), row)

    def session(self, name):
        self.programs += 1
        self.inputs += 1
        given = (HERE / f"{name}_session.txt").read_text()
        printed = self.run(["session", HERE / f"{name}.fp"], given).splitlines()
        wanted = [session_reply(line, SESSIONS[name], names) for names in [{}] for line in given.splitlines()]
        if printed != wanted:
            self.differ(f"session of {name}", given, wanted, printed)


def session_reply(line, functions, names):
    """Only lines that are answered by `ok` or a value stand in the gallery's sessions."""
    if line.startswith("?"):
        return show(names[line[1:].strip()])
    if line.startswith("-"):
        del names[line[1:].strip()]
        return "ok"
    left, right = line.split(" = ")
    call = parse(right)
    put_in = lambda v: v if isinstance(v, int) else names[v[0]] if v[0] in names else (v[0], *map(put_in, v[1:]))
    results = functions[call[0]](*map(put_in, call[1:]))
    names.update(zip(left.split(", "), results))
    return "ok"


def main():
    parser = argparse.ArgumentParser()
    parser.add_argument("--program", default=str(HERE.parent / "fp2"))
    parser.add_argument("--inputs", type=int, default=20, help="further inputs for each program")
    parser.add_argument("names", nargs="*", help="programs, as `rev` or `library rbtree`; all unless given")
    words = parser.parse_args()
    missing = [path.stem for path in sorted(HERE.glob("*.fp")) if path.stem not in GALLERY]
    for name in missing:
        print(f"examples/{name}.fp: nothing is computed for it")
    with tempfile.TemporaryDirectory() as folder:
        comparison = Comparison(os.path.abspath(words.program), folder)
        for name in words.names or GALLERY:
            comparison.gallery(name, words.inputs)
        for name in () if words.names else SESSIONS:
            comparison.session(name)
    print(f"expected: {comparison.programs} programs, {comparison.inputs} inputs, {comparison.differences} differ")
    sys.exit(0 if comparison.inputs and not comparison.differences and not missing else 1)


if __name__ == "__main__":
    main()
