/* The C peer: fixed store, in place, nothing allocated per operation. -DW=1..8
   Built natively by gcc, and to wasm32 by clang; Debian's wasm-interp has no
   WASI, so there the text is in the module (-DTEXT="file") and start gives
   the FNV-1a hash of the text that would be printed.
   stdin  1 reverse: m, then a list      stdout: the list reversed m times
          2 redblack: seed count reps    stdout: the four lines of `fp2 gen`
          3 treemap: m, then a tree      stdout: the tree, each item plus m
          4 to 8: see gallery.h and README.md */
#include "text.h"

#if W == 1
struct cell { i64 x; struct cell *next; };
static struct cell store[1 << 20];
__attribute__((noinline)) static struct cell *reverse(struct cell *l) {
    struct cell *acc = 0;
    while (l) { struct cell *t = l->next; l->next = acc; acc = l; l = t; }
    return acc;
}
static void work(void) {
    i64 m = number();
    u32 n = 0;
    for (blank(); text[at] == 'C'; blank()) { at += 5; store[n++].x = number(); }
    /* cells in the order of their ')' as fp2's loader: the last item first */
    struct cell *l = 0;
    for (u32 i = 0; i < n / 2; i++) { i64 x = store[i].x; store[i].x = store[n - 1 - i].x; store[n - 1 - i].x = x; }
    for (u32 i = 0; i < n; i++) { store[i].next = l; l = &store[i]; }
    while (m-- > 0) l = reverse(l);
    for (; l; l = l->next) { put("Cons("); putn(l->x); put(", "); }
    put("Nil");
    while (n--) put(")");
    put("\n");
}
#elif W == 2
/* 16 bytes a node; the colour is the top bit of c[0]; node 0 is Leaf (black) */
struct node { i64 k; u32 c[2]; };
static struct node s[1 << 17];
#define RED 0x80000000u
#define KID(p, d) (s[p].c[d] & ~RED)
#define ISRED(p) (s[p].c[0] & RED)
static void set(u32 p, int d, u32 v) { s[p].c[d] = d ? v : (s[p].c[0] & RED) | v; }
static u32 used, root;
__attribute__((noinline)) static void insert(i64 k) {
    u32 path[64];
    unsigned char dir[64];
    int d = 0;
    for (u32 p = root; p;) {
        if (s[p].k == k) return;
        path[d] = p;
        p = KID(p, dir[d] = k > s[p].k);
        d++;
    }
    u32 n = ++used;
    s[n].k = k; s[n].c[0] = RED; s[n].c[1] = 0;
    if (!d) { root = n; s[n].c[0] = 0; return; }
    set(path[d - 1], dir[d - 1], n);
    while (d >= 2 && ISRED(path[d - 1])) {
        u32 p = path[d - 1], g = path[d - 2];
        int e = dir[d - 2];
        u32 u = KID(g, !e);
        if (u && ISRED(u)) {
            s[p].c[0] &= ~RED; s[u].c[0] &= ~RED; s[g].c[0] |= RED;
            d -= 2;
            continue;
        }
        if (dir[d - 1] != e) { /* inner grandchild */
            u32 q = KID(p, !e);
            set(p, !e, KID(q, e)); set(q, e, p); set(g, e, q);
            p = q;
        }
        set(g, e, KID(p, !e)); set(p, !e, g);
        s[p].c[0] &= ~RED; s[g].c[0] |= RED;
        if (d >= 3) set(path[d - 3], dir[d - 3], p); else root = p;
        break;
    }
    s[root].c[0] &= ~RED;
}
static i64 count, least, most;
#ifdef CHECK
static int height(u32 p) {
    if (!p) return 1;
    u32 l = KID(p, 0), r = KID(p, 1);
    if (ISRED(p) && ((l && ISRED(l)) || (r && ISRED(r)))) __builtin_trap();
    if ((l && s[l].k >= s[p].k) || (r && s[r].k <= s[p].k)) __builtin_trap();
    int a = height(l), b = height(r);
    if (a != b) __builtin_trap();
    return a + !ISRED(p);
}
#endif
static void walk(u32 p) {
    if (!p) return;
    walk(KID(p, 0));
    if (!count++) least = s[p].k;
    most = s[p].k;
    walk(KID(p, 1));
}
static void work(void) {
    i64 seed = number(), n = number(), reps = number();
    for (i64 r = 0; r < reps; r++) {
        used = root = 0;
        unsigned long long x = seed;
        for (i64 i = 0; i < n; i++) { x = (x * 1103515245 + 12345) & 0x7fffffff; insert(x); }
    }
#ifdef CHECK
    height(root);
#endif
    walk(root);
    put("keys "); putn(n); put("\nnodes "); putn(count);
    put("\nleast "); if (count) putn(least); else put("none");
    put("\ngreatest "); if (count) putn(most); else put("none");
    put("\n");
}
#elif W == 3
struct bin { struct bin *l; i64 x; struct bin *r; };
static struct bin store[1 << 18];
static u32 used;
static struct bin *parse(void) {
    blank();
    if (text[at] == 'L') { at += 4; return 0; }
    at += 4;
    struct bin *l = parse();
    i64 x = number();
    struct bin *r = parse(), *b = &store[used++];
    b->l = l; b->x = x; b->r = r;
    return b;
}
static void print(struct bin *t) {
    if (!t) { put("Leaf"); return; }
    put("Bin("); print(t->l); put(", "); putn(t->x); put(", "); print(t->r); put(")");
}
__attribute__((noinline)) static void increment(struct bin *t) {
    while (t) { increment(t->l); t->x++; t = t->r; }
}
static void work(void) {
    i64 m = number();
    struct bin *t = parse();
    while (m-- > 0) increment(t);
    print(t); put("\n");
}
#else
#include "gallery.h"
#endif

#ifdef __wasm__
__attribute__((export_name("start"))) unsigned long long start(void) {
    work();
    unsigned long long h = 0xcbf29ce484222325u;
    for (u32 i = 0; i < o; i++) h = (h ^ (unsigned char)outs[i]) * 0x100000001b3u;
    return h;
}
#else
int main(void) {
    slurp();
    work();
    for (u32 i = 0; i < o;) { long g = write(1, outs + i, o - i); if (g <= 0) return 1; i += g; }
    return 0;
}
#endif
