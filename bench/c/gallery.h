/* The gallery's workloads in C, over linked cells of a fixed store, in place. -DW=4..8, see peer.c.  */
#if W != 7
static i64 next_number(i64 x) { return (x * 1103515245 + 12345) & 0x7fffffff; }
#endif

#if W == 4 || W == 8
struct list { i64 x; struct list *next; };
static struct list cells[1 << 20];
static u32 read_list(void) {
    u32 n = 0;
    for (blank(); text[at] == 'C'; blank()) { at += 5; cells[n++].x = number(); }
    for (u32 i = 0; i < n; i++) cells[i].next = i + 1 < n ? &cells[i + 1] : 0;
    return n;
}
static void print_list(struct list *l, u32 n) {
    for (; l; l = l->next) { put("Cons("); putn(l->x); put(", "); }
    put("Nil");
    while (n--) put(")");
    put("\n");
}
#endif

#if W == 4
/* From the bottom: runs of one item, then of two, four .. */
__attribute__((noinline)) static struct list *sort(struct list *l) {
    for (u32 width = 1;; width *= 2) {
        struct list *p = l, *done = 0, **end = &done;
        u32 merges = 0;
        while (p) {
            struct list *q = p;
            u32 left = 0, right = width;
            for (; left < width && q; left++) q = q->next;
            merges++;
            while (left || (right && q)) {
                if (left && (!right || !q || p->x <= q->x)) { *end = p; p = p->next; left--; }
                else { *end = q; q = q->next; right--; }
                end = &(*end)->next;
            }
            p = q;
        }
        *end = 0;
        l = done;
        if (merges <= 1) return l;
    }
}
static void work(void) {
    i64 m = number();
    u32 n = read_list();
    struct list *l = n ? cells : 0;
    while (m-- > 0) {
        for (struct list *p = l; p; p = p->next) p->x = next_number(p->x);
        l = sort(l);
    }
    print_list(l, n);
}
#elif W == 5
struct tree { struct tree *l; i64 x; struct tree *r; };
static struct tree nodes[1 << 18], *path[1 << 18];
static u32 used;
static struct tree *parse(void) {
    blank();
    if (text[at] == 'L') { at += 4; return 0; }
    at += 5;
    struct tree *l = parse();
    i64 x = number();
    struct tree *r = parse(), *t = &nodes[used++];
    t->l = l; t->x = x; t->r = r;
    return t;
}
static void print(struct tree *t) {
    if (!t) { put("Leaf"); return; }
    put("Node("); print(t->l); put(", "); putn(t->x); put(", "); print(t->r); put(")");
}
__attribute__((noinline)) static struct tree *splay(struct tree *t, i64 k) {
    u32 d = 0;
    while (t) {
        path[d++] = t;
        if (k == t->x) break;
        t = k < t->x ? t->l : t->r;
    }
    if (!d) return 0;
    struct tree *x = path[d - 1];
    while (d > 2) {
        struct tree *p = path[d - 2], *g = path[d - 3];
        if (g->l == p) {
            if (p->l == x) { g->l = p->r; p->r = g; p->l = x->r; x->r = p; }
            else { p->r = x->l; x->l = p; g->l = x->r; x->r = g; }
        } else {
            if (p->r == x) { g->r = p->l; p->l = g; p->r = x->l; x->l = p; }
            else { p->l = x->r; x->r = p; g->r = x->l; x->l = g; }
        }
        d -= 2;
        if (d > 1) { struct tree *q = path[d - 2]; if (q->l == g) q->l = x; else q->r = x; }
    }
    if (d == 2) {
        struct tree *p = path[0];
        if (p->l == x) { p->l = x->r; x->r = p; } else { p->r = x->l; x->l = p; }
    }
    return x;
}
static void work(void) {
    i64 m = number(), x = number();
    struct tree *t = parse();
    while (m-- > 0) { x = next_number(x); t = splay(t, x / 65536 % 8192); }
    print(t);
    put("\n");
}
#elif W == 6
struct heap { i64 x; struct heap *child, *next; };
static struct heap cells[1 << 20];
static struct heap *join(struct heap *a, struct heap *b) {
    if (!a) return b;
    if (!b) return a;
    if (a->x <= b->x) { b->next = a->child; a->child = b; return a; }
    a->next = b->child; b->child = a;
    return b;
}
__attribute__((noinline)) static struct heap *pop(struct heap *h) {
    struct heap *c = h->child, *done = 0, *all = 0;
    while (c) {
        struct heap *a = c, *b = c->next, *pair;
        c = b ? b->next : 0;
        a->next = 0;
        if (b) b->next = 0;
        pair = join(a, b);
        pair->next = done;
        done = pair;
    }
    while (done) { struct heap *more = done->next; done->next = 0; all = join(done, all); done = more; }
    return all;
}
static void work(void) {
    i64 m = number();
    u32 n = 0;
    for (blank(); text[at] == 'I'; blank()) { at += 5; cells[n++].x = number(); number(); }
    for (u32 i = 0; i < n; i++) cells[i].next = i + 1 < n ? &cells[i + 1] : 0;
    struct heap *l = n ? cells : 0;
    while (m-- > 0) {
        struct heap *h = 0, *done = 0;
        while (l) {
            struct heap *more = l->next;
            l->x = next_number(l->x); l->child = l->next = 0;
            h = join(l, h);
            l = more;
        }
        while (h) { struct heap *rest = pop(h); h->next = done; done = h; h = rest; }
        l = done;
    }
    for (; l; l = l->next) { put("Item("); putn(l->x); put(", 0, "); }
    put("End");
    while (n--) put(")");
    put("\n");
}
#elif W == 7
static i64 row[1 << 12];
static i64 three(i64 unit, i64 x) { return x + x / 10 + x % 10 * unit + x % unit * 10 + x / unit; }
__attribute__((noinline)) static void step(i64 unit, u32 n) {
    i64 first = row[0], above = row[n - 1];
    for (u32 i = 0; i < n; i++) {
        i64 x = row[i], below = i + 1 < n ? row[i + 1] : first;
        i64 sum = three(unit, above) + three(unit, x) + three(unit, below), y = 0, rest = x;
        for (i64 u = unit; u; u /= 10) {
            i64 k = sum / u, old = rest / u;
            y = y * 10 + (k == 3 ? 1 : k == 4 ? old : 0);
            sum %= u; rest %= u;
        }
        row[i] = y;
        above = x;
    }
}
static void work(void) {
    i64 m = number(), unit = number();
    u32 n = 0;
    for (blank(); text[at] == 'C'; blank()) { at += 5; row[n++] = number(); }
    while (n && m-- > 0) step(unit, n);
    for (u32 i = 0; i < n; i++) { put("Cons("); putn(row[i]); put(", "); }
    put("Nil");
    while (n--) put(")");
    put("\n");
}
#else
struct code { i64 x; struct code *l, *r; };
static struct code codes[1 << 10];
static u32 used;
static struct code *parse(void) {
    blank();
    struct code *c = &codes[used++];
    if (text[at] == 'S') { at += 7; c->x = number(); c->l = c->r = 0; return c; }
    at += 5;
    c->l = parse(); c->r = parse();
    return c;
}
/* The list's cells take fresh bits, the last one first. */
static struct list *fill(struct list *l, i64 *seed) {
    struct list *done = 0;
    while (l) {
        struct list *more = l->next;
        *seed = next_number(*seed);
        l->x = *seed / 65536 % 2; l->next = done;
        done = l; l = more;
    }
    return done;
}
/* Symbols in the cells of their first bits, the last one first; then the other cells, with 0. */
__attribute__((noinline)) static struct list *decode(struct code *root, struct list *bits) {
    struct list *done = 0, *spare = 0, *first = 0, *end;
    struct code *c = root;
    while (bits) {
        struct list *more = bits->next;
        c = bits->x ? c->r : c->l;
        if (!first) first = bits;
        else { bits->x = 0; bits->next = spare; spare = bits; }
        if (!c->l) { first->x = c->x; first->next = done; done = first; first = 0; c = root; }
        bits = more;
    }
    if (first) { first->x = 0; first->next = spare; spare = first; }
    if (!done) return spare;
    for (end = done; end->next; end = end->next) ;
    end->next = spare;
    return done;
}
static void work(void) {
    i64 m = number(), seed = number();
    struct code *c = parse();
    u32 n = read_list();
    struct list *l = n ? cells : 0;
    while (m-- > 0) l = decode(c, fill(l, &seed));
    print_list(l, n);
}
#endif
