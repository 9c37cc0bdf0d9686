/* A plain tree walker: what `bench/runs.py` times a run in the clear beside. Nodes stand on the heap, and one recursive function
   walks them. A value has a kind and 64 bits, and each result is wrapped to its kind. Variables are known by number; each stands in
   a block of cells with a live mark, which is looked at as a cell is read or written. Steps are counted, and the last one ends the run.

   usage: walker PROGRAM N   with PROGRAM loop, calls, arrays, structs or blocks */
#include <stdint.h>
#include <stdio.h>
#include <stdlib.h>
#include <string.h>

enum kind { I32, U32, I64, U64 };
enum op { NUMBER, READ, ASSIGN, ADD, LESS, CALL, ELEMENT, COPY, EXPRESS, DECLARE, BLOCK, FOR, RETURN };
enum flow { NEXT, BACK };

struct value { enum kind kind; int64_t bits; };
struct node {
    enum op op;
    enum kind kind;
    int64_t number;                 /* a number, a variable, or how many cells */
    struct node *parts[4];
    struct node *next;              /* the statement after this one */
};
struct block { int is_live; uint32_t length; struct value *cells; };
struct call { uint32_t blocks[16]; struct value result; };

static struct block *blocks;
static uint64_t made, room, steps;
static struct node *called;         /* the body of the one function */

static void fail(const char *why) { fprintf(stderr, "walker: %s\n", why); exit(1); }

static struct node *new_node(enum op op, enum kind kind, int64_t number, struct node *a, struct node *b, struct node *c, struct node *d) {
    struct node *n = malloc(sizeof *n);
    if (!n) fail("no memory");
    *n = (struct node){op, kind, number, {a, b, c, d}, NULL};
    return n;
}

static struct value wrapped(enum kind kind, uint64_t bits) {
    switch (kind) {
    case I32: return (struct value){kind, (int32_t)bits};
    case U32: return (struct value){kind, (uint32_t)bits};
    default: return (struct value){kind, (int64_t)bits};
    }
}

static uint32_t make(uint32_t length, enum kind kind) {
    if (made == room) {
        room = room ? 2 * room : 64;
        blocks = realloc(blocks, room * sizeof *blocks);
        if (!blocks) fail("no memory");
    }
    struct value *cells = malloc(length * sizeof *cells);
    if (!cells) fail("no memory");
    for (uint32_t i = 0; i < length; i++) cells[i] = (struct value){kind, 0};
    blocks[made] = (struct block){1, length, cells};
    return (uint32_t)made++;
}

static void end(uint32_t number) {
    free(blocks[number].cells);
    blocks[number].is_live = 0;
    blocks[number].cells = NULL;
}

static struct value *cell(uint32_t number, uint64_t at) {
    struct block *b = &blocks[number];
    if (!b->is_live) fail("a block that is gone");
    if (at >= b->length) fail("out of a block");
    return &b->cells[at];
}

static void step(void) {
    if (!steps) fail("steps");
    steps--;
}

static enum flow walk(struct node *n, struct call *call, struct value *result);

static struct value value_of(struct node *n, struct call *call) {
    struct value v = {I32, 0};
    walk(n, call, &v);
    return v;
}

static struct value *place_of(struct node *n, struct call *call) {
    if (n->op == ELEMENT) return cell(call->blocks[n->number], (uint64_t)value_of(n->parts[0], call).bits);
    return cell(call->blocks[n->number], 0);
}

static enum flow walk(struct node *n, struct call *call, struct value *result) {
    switch (n->op) {
    case NUMBER:
        *result = (struct value){n->kind, n->number};
        return NEXT;
    case READ:
    case ELEMENT:
        *result = *place_of(n, call);
        return NEXT;
    case ASSIGN: {
        struct value *to = place_of(n->parts[0], call);
        struct value v = value_of(n->parts[1], call);
        *to = wrapped(to->kind, (uint64_t)v.bits);
        *result = *to;
        return NEXT;
    }
    case ADD: {
        struct value a = value_of(n->parts[0], call), b = value_of(n->parts[1], call);
        *result = wrapped(n->kind, (uint64_t)a.bits + (uint64_t)b.bits);
        return NEXT;
    }
    case LESS: {
        struct value a = value_of(n->parts[0], call), b = value_of(n->parts[1], call);
        *result = (struct value){I32, a.kind == U64 ? (uint64_t)a.bits < (uint64_t)b.bits : a.bits < b.bits};
        return NEXT;
    }
    case CALL: {
        struct call inner;
        struct value a = value_of(n->parts[0], call), b = value_of(n->parts[1], call);
        inner.blocks[0] = make(1, I32);
        *cell(inner.blocks[0], 0) = wrapped(I32, (uint64_t)a.bits);
        inner.blocks[1] = make(1, I32);
        *cell(inner.blocks[1], 0) = wrapped(I32, (uint64_t)b.bits);
        inner.result = (struct value){I32, 0};
        for (struct node *s = called; s; s = s->next) {
            step();
            if (walk(s, &inner, result) == BACK) break;
        }
        end(inner.blocks[1]);
        end(inner.blocks[0]);
        *result = inner.result;
        return NEXT;
    }
    case COPY: {
        uint32_t to = call->blocks[n->parts[0]->number], from = call->blocks[n->parts[1]->number];
        for (int64_t i = 0; i < n->number; i++) (void)cell(from, (uint64_t)i), (void)cell(to, (uint64_t)i);
        for (int64_t i = 0; i < n->number; i++) {
            struct value *c = cell(to, (uint64_t)i);
            *c = wrapped(c->kind, (uint64_t)cell(from, (uint64_t)i)->bits);
        }
        return NEXT;
    }
    case EXPRESS:
        return walk(n->parts[0], call, result);
    case DECLARE:
        call->blocks[n->number] = make(n->parts[1] ? (uint32_t)n->parts[1]->number : 1, n->kind);
        if (n->parts[0]) {
            struct value v = value_of(n->parts[0], call);
            *cell(call->blocks[n->number], 0) = wrapped(n->kind, (uint64_t)v.bits);
        }
        return NEXT;
    case BLOCK: {
        uint64_t before = made;
        enum flow flow = NEXT;
        for (struct node *s = n->parts[0]; s && flow == NEXT; s = s->next) {
            step();
            flow = walk(s, call, result);
        }
        for (uint64_t i = made; i > before; i--)
            if (blocks[i - 1].is_live) end((uint32_t)(i - 1));
        return flow;
    }
    case FOR: {
        uint64_t before = made;
        enum flow flow = NEXT;
        walk(n->parts[0], call, result);
        while (flow == NEXT && value_of(n->parts[1], call).bits) {
            step();
            step();
            flow = walk(n->parts[3], call, result);
            if (flow == NEXT) walk(n->parts[2], call, result);
        }
        for (uint64_t i = made; i > before; i--)
            if (blocks[i - 1].is_live) end((uint32_t)(i - 1));
        return flow;
    }
    case RETURN:
        call->result = value_of(n->parts[0], call);
        return BACK;
    }
    return NEXT;
}

static struct node *number(int64_t n) { return new_node(NUMBER, I32, n, NULL, NULL, NULL, NULL); }
static struct node *variable(int64_t slot) { return new_node(READ, I32, slot, NULL, NULL, NULL, NULL); }
static struct node *element(int64_t slot, struct node *at) { return new_node(ELEMENT, I32, slot, at, NULL, NULL, NULL); }
static struct node *add(struct node *a, struct node *b) { return new_node(ADD, I32, 0, a, b, NULL, NULL); }
static struct node *assign(struct node *a, struct node *b) { return new_node(ASSIGN, I32, 0, a, b, NULL, NULL); }
static struct node *express(struct node *a) { return new_node(EXPRESS, I32, 0, a, NULL, NULL, NULL); }
static struct node *declare(int64_t slot, struct node *value, int64_t length) { return new_node(DECLARE, I32, slot, value, number(length), NULL, NULL); }
static struct node *block(struct node *first) { return new_node(BLOCK, I32, 0, first, NULL, NULL, NULL); }
static struct node *list(struct node *a, struct node *rest) { a->next = rest; return a; }
/* for (int slot = 0; slot < count; slot++) part */
static struct node *loop(int64_t slot, struct node *count, struct node *part) {
    return new_node(FOR, I32, 0, declare(slot, number(0), 1), new_node(LESS, I32, 0, variable(slot), count, NULL, NULL),
        assign(variable(slot), add(variable(slot), number(1))), part);
}

int main(int argc, char **argv) {
    if (argc != 3) fail("usage: walker PROGRAM N");
    int64_t n = atoll(argv[2]);
    struct node *sum = express(assign(variable(0), add(variable(0), variable(1)))), *work;
    steps = UINT64_MAX;
    if (!strcmp(argv[1], "loop")) work = loop(1, number(n), sum);
    else if (!strcmp(argv[1], "calls")) {
        called = new_node(RETURN, I32, 0, add(variable(0), variable(1)), NULL, NULL, NULL);
        work = loop(1, number(n), express(assign(variable(0), new_node(CALL, I32, 0, variable(0), variable(1), NULL, NULL))));
    } else if (!strcmp(argv[1], "arrays"))
        work = loop(1, number(n / 1000), loop(2, number(1000), express(assign(variable(0), add(variable(0), element(3, variable(2)))))));
    else if (!strcmp(argv[1], "structs")) work = loop(1, number(n), express(new_node(COPY, I32, 8, variable(4), variable(5), NULL, NULL)));
    else if (!strcmp(argv[1], "blocks"))
        work = loop(1, number(n), block(list(declare(2, variable(1), 1), express(assign(variable(0), add(variable(0), variable(2)))))));
    else { fail("no such program"); return 1; }
    struct node *all = list(declare(0, number(0), 1), list(declare(3, NULL, 1000), list(declare(4, NULL, 8), list(declare(5, NULL, 8), work))));
    struct call call = {{0}, {I32, 0}};
    struct value result = {I32, 0};
    for (struct node *s = all; s; s = s->next) {
        step();
        walk(s, &call, &result);
    }
    printf("%lld\n", (long long)cell(call.blocks[0], 0)->bits);
    fprintf(stderr, "%llu\n", (unsigned long long)(UINT64_MAX - steps));
    return 0;
}
