/* The least machine: the instructions of a code file, as `fp2 compile` stores it, over a fixed store of 64-bit words,
   calls counted, overflow trapped; threaded dispatch by gcc, some operations set apart by their number of fields or
   arguments when loaded. Left out: bounds checks, the gauge, the verifier, zeroing of frames, room checks. The file
   is believed. What an interpreter of these instructions could reach, no rival of it.
       machine CODE ENTRY       stdin: the entry's values; stdout: its results, as `fp2 run`
       machine CODE ENTRY gen   stdin: seed count reps; stdout: the four lines of `fp2 gen`, of the tree that the
                                entry makes of the keys, a spare cell for each, and Leaf */
#include "text.h"
#include <fcntl.h>
#include <stdio.h>
#include <stdlib.h>
#include <string.h>
typedef unsigned long long u64;

/* ---- the code file: types, functions, instructions ---- */
enum { CONST = 1, ATOM, MOVE, ARITH, TEST, TESTINT, PEEK, TAKE, PUT, DROP, FREE, CALL, TAIL, RET, JUMP,
       ADD, SUB, MUL, DIV, REM, EQ, NE, LT, LE, GT, GE,
       TAKE2, TAKE3, TAKE4, PUT2, PUT3, PUT4, TAIL1, TAIL2, TAIL3, TAIL4, TAIL5, TAIL6 };
struct maker { char name[64]; u32 tag; int k; u32 types[16]; };
static struct maker makers[1 << 12];                  /* constructors, those of one type together */
static u32 first_of[1 << 12], count_of[1 << 12], nmakers;
static int has_cells[1 << 12];                        /* by type: some constructor has fields */
struct function {
    char name[64];
    u32 entry, regs, params, types[64], credits, results[16];
    int nresults;
    unsigned char sizes[16];
};
static struct function funs[1 << 10];
static u32 nfuns;
static u32 code[1 << 18], cn, call_at[1 << 14], ncalls;

static u32 head_of(u32 maker) { return makers[maker].tag << 16 | maker; }

static unsigned char bytes[1 << 22];
static u32 bp;
static u64 big(int n) { u64 v = 0; while (n--) v = v << 8 | bytes[bp++]; return v; }
static void name_to(char *to) {
    u32 n = big(4);
    if (n > 63) exit(2);
    memcpy(to, bytes + bp, n);
    to[n] = 0;
    bp += n;
}
static void read_types(void) {
    u32 n = big(2);
    for (u32 t = 1; t <= n; t++) {
        u32 m = big(4);
        first_of[t] = nmakers;
        count_of[t] = m;
        for (u32 c = 0; c < m; c++) {
            struct maker *it = &makers[nmakers++];
            name_to(it->name);
            it->tag = c;
            it->k = big(1);
            for (int i = 0; i < it->k; i++) it->types[i] = big(2);
            has_cells[t] |= it->k > 0;
        }
    }
}
static void wide(u64 v) { code[cn++] = v; code[cn++] = v >> 32; }
static void registers(int n) { while (n--) code[cn++] = big(2); }
static u32 target_at[1 << 14], ntargets;
static void target(void) { target_at[ntargets++] = cn; code[cn++] = big(4); }
static void callee(void) { call_at[ncalls++] = cn; code[cn++] = big(4); }
/* Some operations by their number: there are such from `least` to `most`. */
static int apart(int n, int least, int most, int first, int op) {
    return n < least || n > most ? op : first + n - least;
}
static void read_instruction(u32 regs) {
    u32 at = cn++, n;
    int op = big(1);
    code[at] = op;
    switch (op) {
    case CONST: registers(1); wide(big(8)); break;
    case ATOM: registers(1); big(2); code[cn++] = 2 * big(4); break;
    case MOVE: registers(2); break;
    case ARITH: registers(1); code[at] = ADD + big(1); registers(2); big(8); break;
    case TEST: registers(1); code[cn++] = big(4); target(); break;
    case TESTINT: registers(1); wide(big(8)); target(); break;
    case PEEK: registers(2); code[cn++] = big(1); break;
    case TAKE:
        registers(1);
        n = big(1);
        code[at] = apart(n, 2, 4, TAKE2, TAKE);
        if (code[at] == TAKE) code[cn++] = n;
        registers(n);
        break;
    case PUT:
        registers(1);
        n = big(2);
        code[cn++] = head_of(first_of[n] + big(4));
        n = big(1);
        code[at] = apart(n, 2, 4, PUT2, PUT);
        if (code[at] == PUT) code[cn++] = n;
        registers(n);
        break;
    case DROP: case FREE: registers(1); break;
    case CALL:
        callee();
        code[cn++] = regs;
        code[cn++] = n = big(2);
        registers(n);
        code[cn++] = n = big(1);
        registers(n);
        break;
    case TAIL:
        callee();
        n = big(2);
        code[at] = apart(n, 1, 6, TAIL1, TAIL);
        if (code[at] == TAIL) code[cn++] = n;
        registers(n);
        break;
    case RET: code[cn++] = n = big(1); registers(n); break;
    case JUMP: target(); break;
    default: exit(2);
    }
}
static void skip_set(void) { u32 n = big(2); bp += 4 * n; }
static void skip_kind(void) {
    switch (big(1)) {
    case 0: break;
    case 1: bp += 2; skip_set(); break;
    case 2: bp += 2; skip_set(); bp += 5; break;
    case 3: bp += 2; break;
    default: bp += 1;
    }
}
static void read_function(struct function *f, int version) {
    static u32 place[1 << 16];
    big(1);
    name_to(f->name);
    f->params = big(2);
    for (u32 i = 0; i < f->params; i++) { big(1); f->types[i] = big(2); }
    f->credits = version > 1 ? big(1) : 0;
    for (u32 i = 0; i < f->credits; i++) f->sizes[i] = big(1);
    f->nresults = big(1);
    for (int i = 0; i < f->nresults; i++) f->results[i] = big(2);
    f->regs = big(2);
    f->entry = cn;
    u32 n = big(4);
    ntargets = 0;
    for (u32 i = 0; i < n; i++) { place[i] = cn; read_instruction(f->regs); }
    for (u32 i = 0; i < ntargets; i++) code[target_at[i]] = place[code[target_at[i]]];
    for (u32 labels = big(4); labels--;) { bp += 4; for (u32 i = 0; i < f->regs; i++) skip_kind(); }
}
static void read_code(const char *path) {
    int file = open(path, O_RDONLY);
    if (file < 0 || read(file, bytes, sizeof bytes) < 8) exit(2);
    bp = 4;
    int version = big(2);
    read_types();
    nfuns = big(2);
    for (u32 i = 0; i < nfuns; i++) read_function(&funs[i], version);
    for (u32 i = 0; i < ncalls; i++) code[call_at[i]] = funs[code[call_at[i]]].entry;
}
static struct function *function(const char *name) {
    for (u32 i = 0; i < nfuns; i++) if (!strcmp(funs[i].name, name)) return &funs[i];
    fprintf(stderr, "no function %s\n", name);
    exit(2);
}

/* ---- store: a cell at p is a head, tag and constructor, then its fields ---- */
static u64 store[1 << 21];
static u32 top;
static u64 cell(u32 maker, const u64 *f) {
    int k = makers[maker].k;
    u32 p = top;
    if (!k) return 2 * (u64)makers[maker].tag;
    store[p] = head_of(maker);
    for (int i = 0; i < k; i++) store[p + 1 + i] = f[i];
    top += k + 1;
    return 2 * (u64)p + 1;
}
#define TAG(w) ((w) & 1 ? store[(w) >> 1] >> 16 : (w) >> 1)
#define MAKER(w) (store[(w) >> 1] & 0xffff)

static u64 stack[1 << 20], results[16];
static u64 released;
static void drop(u64 word) {
    static u64 waiting[1 << 16];
    u32 n = 0;
    for (;;) {
        if (word & 1) {
            u64 *c = store + (word >> 1);
            struct maker *m = &makers[*c & 0xffff];
            released++;
            for (int i = 0; i < m->k; i++) if (has_cells[m->types[i]]) waiting[n++] = c[1 + i];
        }
        if (!n) return;
        word = waiting[--n];
    }
}
static void run(u64 calls, struct function *entry, const u64 *args) {
    static void *go[] = {
        [CONST] = &&const_, [ATOM] = &&atom, [MOVE] = &&move, [TEST] = &&test, [TESTINT] = &&testint,
        [PEEK] = &&peek, [TAKE] = &&take, [PUT] = &&put_, [DROP] = &&drop_, [FREE] = &&free_, [CALL] = &&call,
        [TAIL] = &&tail, [RET] = &&ret, [JUMP] = &&jump, [ADD] = &&add, [SUB] = &&sub, [MUL] = &&mul, [DIV] = &&div_,
        [REM] = &&rem, [EQ] = &&eq, [NE] = &&ne, [LT] = &&lt, [LE] = &&le, [GT] = &&gt, [GE] = &&ge,
        [TAKE2] = &&take2, [TAKE3] = &&take3, [TAKE4] = &&take4,
        [PUT2] = &&put2, [PUT3] = &&put3, [PUT4] = &&put4, [TAIL1] = &&tail1, [TAIL2] = &&tail2, [TAIL3] = &&tail3,
        [TAIL4] = &&tail4, [TAIL5] = &&tail5, [TAIL6] = &&tail6 };
    /* a frame: [-2] the frame below, [-1] where to go on there, then the registers */
    u64 *fp = stack + 2;
    for (u32 i = 0; i < entry->params + entry->credits; i++) fp[i] = args[i];
    const u32 *pc = code + entry->entry;
    fp[-2] = 0;
    calls--;
#define NEXT goto *go[*pc]
#define R(i) fp[pc[i]]
#define I(i) ((i64)fp[pc[i]])
#define WIDE(i) (pc[i] | (u64)pc[(i) + 1] << 32)
    NEXT;
const_: R(1) = WIDE(2); pc += 4; NEXT;
atom: R(1) = pc[2]; pc += 3; NEXT;
move: R(1) = R(2); pc += 3; NEXT;
#define CHECKED(how) { i64 v; if (how(I(2), I(3), &v)) exit(3); R(1) = v; } pc += 4; NEXT;
add: CHECKED(__builtin_add_overflow)
sub: CHECKED(__builtin_sub_overflow)
mul: CHECKED(__builtin_mul_overflow)
div_: { i64 a = I(2), b = I(3); if (!b || (b == -1 && a < -__LONG_LONG_MAX__)) exit(3); R(1) = a / b; } pc += 4; NEXT;
rem: { i64 a = I(2), b = I(3); if (!b) exit(3); R(1) = b == -1 ? 0 : a % b; } pc += 4; NEXT;
#define COMPARED(op) R(1) = 2 * (I(2) op I(3)); pc += 4; NEXT;
eq: COMPARED(==)
ne: COMPARED(!=)
lt: COMPARED(<)
le: COMPARED(<=)
gt: COMPARED(>)
ge: COMPARED(>=)
test: { u64 w = R(1); if (TAG(w) != pc[2]) pc = code + pc[3]; else pc += 4; } NEXT;
testint: if (R(1) != WIDE(2)) pc = code + pc[4]; else pc += 5; NEXT;
jump: pc = code + pc[1]; NEXT;
peek: R(1) = store[(R(2) >> 1) + 1 + pc[3]]; pc += 4; NEXT;
#define CELL u64 *c = store + (R(1) >> 1)
take: { CELL; u32 k = pc[2]; for (u32 i = 0; i < k; i++) R(3 + i) = c[1 + i]; pc += 3 + k; } NEXT;
take2: { CELL; u64 a = c[1], b = c[2]; R(2) = a; R(3) = b; pc += 4; } NEXT;
take3: { CELL; u64 a = c[1], b = c[2], d = c[3]; R(2) = a; R(3) = b; R(4) = d; pc += 5; } NEXT;
take4: { CELL; u64 a = c[1], b = c[2], d = c[3], e = c[4]; R(2) = a; R(3) = b; R(4) = d; R(5) = e; pc += 6; } NEXT;
put_: { CELL; u32 k = pc[3]; c[0] = pc[2]; for (u32 i = 0; i < k; i++) c[1 + i] = R(4 + i); pc += 4 + k; } NEXT;
put2: { CELL; c[0] = pc[2]; c[1] = R(3); c[2] = R(4); pc += 5; } NEXT;
put3: { CELL; c[0] = pc[2]; c[1] = R(3); c[2] = R(4); c[3] = R(5); pc += 6; } NEXT;
put4: { CELL; c[0] = pc[2]; c[1] = R(3); c[2] = R(4); c[3] = R(5); c[4] = R(6); pc += 7; } NEXT;
drop_: drop(R(1)); pc += 2; NEXT;
free_: released++; pc += 2; NEXT;
call: {
        if (!calls--) exit(4);
        u32 n = pc[3];
        u64 *nf = fp + pc[2] + 2;
        for (u32 i = 0; i < n; i++) nf[i] = R(4 + i);
        nf[-1] = pc + 4 + n - code;
        nf[-2] = fp - stack;
        fp = nf;
        pc = code + pc[1];
    }
    NEXT;
#define GO if (!calls--) exit(4); pc = code + pc[1]
tail: {
        u64 args[64];
        u32 n = pc[2];
        for (u32 i = 0; i < n; i++) args[i] = R(3 + i);
        for (u32 i = 0; i < n; i++) fp[i] = args[i];
        GO;
    }
    NEXT;
tail1: { u64 a = R(2); fp[0] = a; GO; } NEXT;
tail2: { u64 a = R(2), b = R(3); fp[0] = a; fp[1] = b; GO; } NEXT;
tail3: { u64 a = R(2), b = R(3), c = R(4); fp[0] = a; fp[1] = b; fp[2] = c; GO; } NEXT;
tail4: { u64 a = R(2), b = R(3), c = R(4), d = R(5); fp[0] = a; fp[1] = b; fp[2] = c; fp[3] = d; GO; } NEXT;
tail5: { u64 a = R(2), b = R(3), c = R(4), d = R(5), e = R(6);
         fp[0] = a; fp[1] = b; fp[2] = c; fp[3] = d; fp[4] = e; GO; } NEXT;
tail6: { u64 a = R(2), b = R(3), c = R(4), d = R(5), e = R(6), g = R(7);
         fp[0] = a; fp[1] = b; fp[2] = c; fp[3] = d; fp[4] = e; fp[5] = g; GO; } NEXT;
ret: {
        u32 n = pc[1];
        for (u32 i = 0; i < n; i++) results[i] = R(2 + i);
        if (!fp[-2]) return;
        pc = code + fp[-1];
        fp = stack + fp[-2];
        u32 m = *pc++;
        for (u32 i = 0; i < m; i++) fp[pc[i]] = results[i];
        pc += m;
    }
    NEXT;
}

/* ---- values as text; cells are made in the order of their closing brackets, as fp2's loader makes them ---- */
static u64 read_value(u32 type) {
    static u64 fields[1 << 20];
    static struct { u32 maker, done; } open[1 << 20];
    u32 n = 0, deep = 0;
    for (;;) {
        if (!type) fields[n++] = number();
        else {
            blank();
            u32 m = first_of[type], end = m + count_of[type];
            for (;; m++) {
                if (m == end) exit(5);
                u32 l = strlen(makers[m].name);
                char c = text[at + l];
                if (!strncmp(text + at, makers[m].name, l) && strchr("(,)\n", c)) break;
            }
            at += strlen(makers[m].name);
            if (makers[m].k) {
                at++;
                open[deep].maker = m;
                open[deep++].done = 0;
                type = makers[m].types[0];
                continue;
            }
            fields[n++] = 2 * (u64)makers[m].tag;
        }
        /* a value has ended */
        while (deep) {
            struct maker *m = &makers[open[deep - 1].maker];
            if (++open[deep - 1].done < (u32)m->k) { type = m->types[open[deep - 1].done]; break; }
            n -= m->k;
            fields[n] = cell(open[--deep].maker, fields + n);
            n++;
        }
        if (!deep) return fields[0];
    }
}
static void show(u64 word, u32 type) {
    enum { VALUE, COMMA, CLOSE };
    static struct { u64 word; u32 type; int kind; } waiting[1 << 20];
    u32 n = 0;
    waiting[n].word = word; waiting[n].type = type; waiting[n++].kind = VALUE;
    while (n--) {
        if (waiting[n].kind == COMMA) { put(", "); continue; }
        if (waiting[n].kind == CLOSE) { put(")"); continue; }
        u64 w = waiting[n].word;
        u32 t = waiting[n].type;
        if (!t) { putn(w); continue; }
        struct maker *m = &makers[w & 1 ? MAKER(w) : first_of[t] + (w >> 1)];
        put(m->name);
        if (!(w & 1)) continue;
        put("(");
        waiting[n++].kind = CLOSE;
        for (int i = m->k; i--;) {
            waiting[n].word = store[(w >> 1) + 1 + i]; waiting[n].type = m->types[i]; waiting[n++].kind = VALUE;
            if (i) waiting[n++].kind = COMMA;
        }
    }
    put("\n");
}

#define CALLS 1000000000
static void work(struct function *f) {
    u64 args[80];
    u32 n = 0;
    for (u32 i = 0; i < f->params; i++) args[n++] = read_value(f->types[i]);
    for (u32 i = 0; i < f->credits; i++) { args[n++] = 2 * (u64)top + 1; top += f->sizes[i] + 1; }
    run(CALLS, f, args);
    for (int i = 0; i < f->nresults; i++) show(results[i], f->results[i]);
}

/* The tree's nodes are Node(color, left, key, right). */
static i64 count, least, most;
static void walk(u64 t) {
    if (!(t & 1)) return;
    u64 *node = store + (t >> 1);
    walk(node[2]);
    if (!count++) least = node[3];
    most = node[3];
    walk(node[4]);
}
/* A list of a type: of these numbers, or of as many cells of the items' second constructor. */
static u64 list_of(i64 n, const i64 *numbers, u32 type) {
    static const u64 zero[16];
    u32 cons = first_of[type] + 1;
    u64 list = 0;
    while (n--) {
        u64 f[2] = {numbers ? (u64)numbers[n] : cell(first_of[makers[cons].types[0]] + 1, zero), list};
        list = cell(cons, f);
    }
    return list;
}
static void generate(struct function *f) {
    static i64 key[1 << 17];
    u64 x = number();
    i64 n = number(), reps = number();
    for (i64 i = 0; i < n; i++) key[i] = x = (x * 1103515245 + 12345) & 0x7fffffff;
    while (reps-- > 0) {
        top = 0;
        u64 args[3] = {list_of(n, key, f->types[0]), list_of(n, 0, f->types[1]), 0};
        run(CALLS, f, args);
    }
    walk(results[0]);
    put("keys "); putn(n); put("\nnodes "); putn(count);
    put("\nleast "); if (count) putn(least); else put("none");
    put("\ngreatest "); if (count) putn(most); else put("none");
    put("\n");
}
int main(int argc, char **argv) {
    if (argc < 3) return 2;
    read_code(argv[1]);
    slurp();
    if (argc > 3) generate(function(argv[2])); else work(function(argv[2]));
    for (u32 i = 0; i < o;) { long g = write(1, outs + i, o - i); if (g <= 0) return 1; i += g; }
    return 0;
}
