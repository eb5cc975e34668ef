/* The calls over one block beside the long calls: random samples, most of them good, the others broken in every way that has a refusal. A block of
   just the size told stands between guard bytes; answer, rows, bases, origins, edges and nodes must be those of the long call over slices of its own,
   and what a call must not touch must stay. `compare/block` builds it under AddressSanitizer and UBSan.
   usage: block N SEED; last line: N passed, M failed */
#include "punelavoh.h"
#include <math.h>
#include <sanitizer/asan_interface.h>
#include <stdio.h>
#include <stdlib.h>
#include <string.h>

enum { GUARD = 64, MOST_READS = 520, MOST_BASES = 33000, MOST_PLACES = 65540, NUMBERS = 16 };
static const unsigned char GUARD_BYTE = 0x5c;

/* ---- random numbers */

static uint64_t state;

static uint32_t random_below(uint32_t n) {
    state += 0x9e3779b97f4a7c15u;
    uint64_t x = state;
    x = (x ^ (x >> 30)) * 0xbf58476d1ce4e5b9u;
    x = (x ^ (x >> 27)) * 0x94d049bb133111ebu;
    return (uint32_t)((x ^ (x >> 31)) % n);
}

static bool one_in(uint32_t n) {
    return random_below(n) == 0;
}

static uint32_t between(uint32_t low, uint32_t high) {
    return low + random_below(high - low + 1);
}

/* ---- an input */

typedef struct {
    PunelavohSettings settings;
    uint8_t reference[1100], bases[MOST_BASES], qualities[MOST_BASES];
    uint32_t ends[MOST_READS];
    size_t reference_length, ends_length, bases_length, qualities_length, column_length;
    unsigned char fill; /* what memory holds before a call */
    double column[MOST_PLACES];
} Input;

static Input in;

/* Few letters make few kmers, and so forks, bubbles and cycles. */
static void make_reference(void) {
    uint32_t letters = between(1, 4), least = in.settings.k;
    in.reference_length = one_in(40) ? between(least, 1024) : between(least, least + between(1, 40));
    for (size_t i = 0; i < in.reference_length; i++)
        in.reference[i] = (uint8_t)(one_in(200) ? 'N' : "ACGT"[random_below(letters)]);
}

/* A read is a part of the reference with bases changed, left out and put in. */
static void make_read(void) {
    size_t from = random_below((uint32_t)in.reference_length), most = between(0, (uint32_t)(in.reference_length - from));
    if (!one_in(4)) {
        from = 0;
        most = in.reference_length;
    }
    uint32_t rate = one_in(3) ? 1000 : between(4, 20);
    for (size_t i = from; i < from + most && in.bases_length < 32000; i++) {
        if (one_in(rate * 3))
            continue;
        in.qualities[in.bases_length] = (uint8_t)(one_in(40) ? between(0, 12) : 40);
        in.bases[in.bases_length++] = (uint8_t)(one_in(400) ? 'x' : one_in(rate) ? "ACGTN"[random_below(5)] : in.reference[i]);
    }
    in.ends[in.ends_length++] = (uint32_t)in.bases_length;
}

static void make_column(uint32_t length) {
    in.column_length = length;
    in.column[0] = one_in(10) ? NAN : 0;
    for (size_t n = 1; n < in.column_length; n++)
        in.column[n] = log10((double)n);
}

static void make_maxima(void) {
    PunelavohGraphMaxima *graph = &in.settings.graph;
    PunelavohSearchMaxima *search = &in.settings.search;
    if (one_in(100)) {
        *graph = (PunelavohGraphMaxima){4096, 8192, 16384};
        *search = (PunelavohSearchMaxima){4096, 64, 32768};
        return;
    }
    *graph = (PunelavohGraphMaxima){between(100, 400), between(100, 600), between(100, 900)};
    *search = (PunelavohSearchMaxima){between(50, 200), between(4, 16), between(40, 400)};
    if (one_in(8))
        graph->vertices = between(2, 40);
    if (one_in(8))
        graph->edges = between(1, 40);
    if (one_in(6))
        graph->nodes = between(1, 30);
    if (one_in(6))
        search->path_edges = between(1, 20);
    if (one_in(6))
        search->active = between(1, 3);
    if (one_in(6))
        search->pushes = between(1, 20);
}

/* One rule of 1 to 6 is broken. */
static void break_input(void) {
    uint32_t *maxima[] = {&in.settings.graph.vertices, &in.settings.graph.edges, &in.settings.graph.nodes, &in.settings.search.path_edges,
        &in.settings.search.active, &in.settings.search.pushes};
    size_t place = in.column_length > 1 ? between(1, (uint32_t)in.column_length - 1) : 1;
    switch (random_below(15)) {
    case 0: in.settings.k = one_in(2) ? random_below(2) : between(129, 1000); break;
    case 1: in.reference_length = one_in(2) && in.settings.k > 0 ? in.settings.k - 1 : 1025; break;
    case 2: in.reference[random_below((uint32_t)in.reference_length + 1)] = 'a'; break;
    case 3: in.ends[0] = (uint32_t)in.bases_length + 1; in.ends_length += in.ends_length == 0; break;
    case 4: in.bases_length += 1; break;
    case 5: in.qualities_length += 1; break;
    case 6:
        while (in.ends_length < 513)
            in.ends[in.ends_length++] = (uint32_t)in.bases_length;
        break;
    case 7:
        in.bases_length = in.qualities_length = in.ends[0] = 32769;
        in.ends_length = 1;
        break;
    case 8: in.settings.asked = between(129, 1000); break;
    case 9: *maxima[random_below(6)] = one_in(2) ? 0 : 32769; break;
    case 10: in.column_length = random_below(2); break;
    case 11: make_column(65537); break;
    case 12: in.column[1] = 0.5; break;
    case 13: in.column[place] = one_in(2) ? NAN : 16.5; break;
    case 14: in.column[place] = -1; break;
    }
}

static void make_input(uint64_t seed, uint64_t number) {
    state = seed * 0x100000001b3u + number;
    memset(&in, 0, offsetof(Input, column));
    in.settings.k = one_in(30) ? between(2, 128) : between(2, 6);
    in.settings.quality = (uint8_t)between(0, 12);
    in.settings.asked = one_in(20) ? between(0, 128) : between(0, 8);
    in.settings.threshold = (int32_t)between(0, 12) - 1;
    in.settings.recovery = one_in(2);
    make_maxima();
    make_reference();
    uint32_t reads = one_in(50) ? between(0, 512) : between(0, 12);
    for (uint32_t read = 0; read < reads; read++)
        make_read();
    in.qualities_length = in.bases_length;
    make_column(one_in(10) ? between(2, 6) : one_in(50) ? between(512, 65536) : between(32, 512));
    for (uint32_t broken = one_in(4) ? between(1, 2) : 0; broken > 0; broken--)
        break_input();
    in.fill = (unsigned char)(one_in(4) ? 0 : between(1, 255));
}

/* The sample as a caller has it: null where it has none. */
static PunelavohSample sample(void) {
    PunelavohSample s = {.reference = in.reference_length ? in.reference : NULL, .reference_length = in.reference_length,
        .ends = in.ends_length ? in.ends : NULL, .ends_length = in.ends_length, .bases = in.bases_length ? in.bases : NULL,
        .bases_length = in.bases_length, .qualities = in.qualities_length ? in.qualities : NULL, .qualities_length = in.qualities_length,
        .column = in.column_length ? in.column : NULL, .column_length = in.column_length};
    return s;
}

/* ---- what fails */

static bool failed;

static void expect(bool holds, const char *what) {
    if (!holds && !failed)
        printf("not as it should be: %s\n", what);
    failed = failed || !holds;
}

/* ---- slices for the long calls, and a block between guards */

static void *slices[32];
static size_t slices_count;

static void *lent(size_t length, size_t width) {
    void *slice = malloc(length * width + 1);
    memset(slice, in.fill, length * width + 1);
    return slices[slices_count++] = slice;
}

static void free_slices(void) {
    while (slices_count > 0)
        free(slices[--slices_count]);
}

typedef struct {
    unsigned char *all, *memory;
    size_t size;
} Block;

static Block make_block(size_t size) {
    Block b = {.all = malloc(GUARD + size + GUARD), .size = size};
    b.memory = b.all + GUARD;
    memset(b.all, GUARD_BYTE, GUARD + size + GUARD);
    memset(b.memory, in.fill, size);
    ASAN_POISON_MEMORY_REGION(b.all, GUARD);
    ASAN_POISON_MEMORY_REGION(b.memory + size, GUARD);
    return b;
}

static void end_block(Block b) {
    ASAN_UNPOISON_MEMORY_REGION(b.all, GUARD + b.size + GUARD);
    for (size_t i = 0; i < GUARD; i++)
        expect(b.all[i] == GUARD_BYTE && b.memory[b.size + i] == GUARD_BYTE, "the guard bytes");
    free(b.all);
}

/* All bytes of the block but for the parts given are of that value. */
static void expect_rest(Block b, unsigned char value, const void *parts[], const size_t lengths[], size_t count, const char *what) {
    unsigned char *copy = malloc(b.size + 1);
    memcpy(copy, b.memory, b.size);
    for (size_t i = 0; i < count; i++)
        memset(copy + ((const unsigned char *)parts[i] - b.memory), value, lengths[i]);
    size_t same = 0;
    while (same < b.size && copy[same] == value)
        same++;
    expect(same == b.size, what);
    free(copy);
}

static void expect_untouched(Block b, const char *what) {
    expect_rest(b, in.fill, NULL, NULL, 0, what);
}

/* A refusal of 1 to 6 comes before that of a block; where there is none, the block's is the answer. */
static void expect_unfit(uint32_t refusal, uint32_t all_else, const char *what) {
    bool first = all_else >= PUNELAVOH_REFUSED_K && all_else < PUNELAVOH_REFUSED_SHORT_SLICE;
    expect(refusal == (first ? all_else : (uint32_t)PUNELAVOH_REFUSED_SHORT_SLICE), what);
}

/* ---- the list */

typedef struct {
    PunelavohListAnswer answer;
    PunelavohLengthsTold told;
    PunelavohPathRow *rows;
    uint8_t *bases;
    uint32_t *sequences, *places;
} LongList;

static LongList long_list(void) {
    PunelavohSettings a = in.settings;
    LongList l = {.told = punelavoh_lengths(a.k, a.asked, a.graph, a.search)};
    PunelavohWorkspace w = l.told.workspace;
    l.rows = lent(l.told.paths, sizeof *l.rows);
    for (size_t r = 0; r < l.told.paths; r++)
        l.rows[r].is_ref = false;
    l.bases = lent(l.told.bases, 1);
    l.sequences = lent(l.told.origins, 4);
    l.places = lent(l.told.origins, 4);
    l.answer = punelavoh_list(a, in.reference, in.reference_length, in.ends, in.ends_length, in.bases, in.bases_length, in.qualities,
        in.qualities_length, in.column, in.column_length, l.rows, l.told.paths, l.bases, l.told.bases, l.sequences, l.told.origins, l.places,
        l.told.origins, lent(w.vertices, 4), w.vertices, lent(w.edges, 4), w.edges, lent(w.index, 4), w.index, lent(w.nodes, 4), w.nodes,
        lent(w.targets, 4), w.targets, lent(w.paths, 4), w.paths, lent(w.scores, 8), w.scores, lent(w.active, 2), w.active, lent(w.queue, 4),
        w.queue, lent(w.closed, 4), w.closed, lent(w.order, 4), w.order, lent(w.marks, 4), w.marks, lent(w.walks, 4), w.walks,
        lent(w.columns, 8), w.columns, lent(w.columns, 4), w.columns, lent(w.columns, 4), w.columns);
    return l;
}

static void expect_same_answer(PunelavohListAnswer a, PunelavohListAnswer b) {
    expect(a.refusal == b.refusal && a.paths == b.paths && a.pushes == b.pushes && a.mark == b.mark, "the answer of the list");
}

/* Row r by the accessors beside the long call's slices, and each edge's bytes at its origin beside the bases that it spells. */
static void compare_row(const PunelavohList *list, const LongList *l, uint32_t r) {
    size_t k = in.settings.k, most = in.settings.search.path_edges;
    const PunelavohPathRow *row = punelavoh_list_row(list, r);
    PunelavohBytes bases = punelavoh_list_bases(list, r);
    expect(row != NULL && memcmp(row, &l->rows[r], sizeof *row) == 0, "a row");
    expect(bases.length == k + l->rows[r].edges && memcmp(bases.bytes, l->bases + r * (k + most), bases.length) == 0, "the bases of a row");
    for (uint32_t e = 0; e < l->rows[r].edges; e++) {
        PunelavohOrigin o = punelavoh_list_origin(list, r, e);
        expect(o.sequence == l->sequences[r * most + e] && o.place == l->places[r * most + e], "an origin");
        PunelavohBytes there = punelavoh_origin_bytes(in.settings.k, sample(), o.sequence, o.place);
        expect(there.length == k + 1 && memcmp(there.bytes, bases.bytes + e, there.length) == 0, "the bytes at an origin");
    }
    const uint32_t beyond[] = {l->rows[r].edges, l->rows[r].edges + 1, UINT32_MAX};
    for (int i = 0; i < 3; i++)
        expect(punelavoh_list_origin(list, r, beyond[i]).sequence == UINT32_MAX, "an origin beyond the last");
}

static void compare_list(const PunelavohList *list, const LongList *l) {
    expect_same_answer(list->answer, l->answer);
    for (uint32_t r = 0; r < l->answer.paths && !failed; r++)
        compare_row(list, l, r);
    const uint32_t beyond[] = {l->answer.paths, l->answer.paths + 1, UINT32_MAX};
    for (int i = 0; i < 3; i++) {
        PunelavohBytes bases = punelavoh_list_bases(list, beyond[i]);
        PunelavohOrigin origin = punelavoh_list_origin(list, beyond[i], 0);
        expect(punelavoh_list_row(list, beyond[i]) == NULL && bases.bytes == NULL && bases.length == 0, "a row beyond the last");
        expect(punelavoh_origin_bytes(in.settings.k, sample(), origin.sequence, origin.place).bytes == NULL, "an origin of no row");
    }
}

/* What the block holds afterwards: the output is the long call's to the last byte, and the rest is zero. */
static void compare_block(Block b, const PunelavohList *list, const LongList *l) {
    const void *parts[] = {list->rows, list->out_bases, list->sequences, list->places};
    const void *longs[] = {l->rows, l->bases, l->sequences, l->places};
    const size_t lengths[] = {l->told.paths * sizeof *l->rows, l->told.bases, l->told.origins * 4, l->told.origins * 4};
    for (int i = 0; i < 4; i++)
        expect(memcmp(parts[i], longs[i], lengths[i]) == 0, "the output in the block");
    bool kept = l->answer.refusal >= PUNELAVOH_REFUSED_K && l->answer.refusal <= PUNELAVOH_REFUSED_SHORT_SLICE;
    expect_rest(b, kept ? in.fill : 0, parts, lengths, 4, "the workspace in the block");
}

static void unfit_list(Block b, size_t size, uint32_t refusal) {
    PunelavohList list;
    expect_unfit(punelavoh_list_in(in.settings, sample(), NULL, 0, &list), refusal, "no block for the list");
    expect(list.answer.paths == 0 && punelavoh_list_row(&list, 0) == NULL && punelavoh_list_bases(&list, 0).bytes == NULL, "a list without a block");
    expect_unfit(punelavoh_list_in(in.settings, sample(), NULL, size, &list), refusal, "a null block for the list");
    if (size > 0)
        expect_unfit(punelavoh_list_in(in.settings, sample(), b.memory, size - 1, &list), refusal, "a block for the list that is one byte short");
    for (size_t off = 1; off < PUNELAVOH_ALIGNMENT && size > 0; off++)
        expect_unfit(punelavoh_list_in(in.settings, sample(), b.memory + off, size, &list), refusal, "a block for the list that is not aligned");
    expect_untouched(b, "a block that the list may not use");
}

static uint32_t try_list(void) {
    LongList l = long_list();
    size_t size = punelavoh_list_size(in.settings);
    expect((size == 0) == (l.told.refusal != 0), "the size for the list");
    Block b = make_block(size);
    unfit_list(b, size, l.answer.refusal);
    PunelavohList list;
    size_t lent_size = size + (one_in(2) ? 0 : random_below(GUARD + 1));
    for (int turn = 0; turn < 2; turn++) { /* the second call finds what the first left */
        uint32_t refusal = punelavoh_list_in(in.settings, sample(), b.memory, lent_size, &list);
        expect(refusal == list.answer.refusal, "the refusal returned");
        compare_list(&list, &l);
        if (size > 0 && !failed)
            compare_block(b, &list, &l);
    }
    end_block(b);
    free_slices();
    return l.answer.refusal;
}

/* ---- edges and trees */

typedef struct {
    PunelavohGraphAnswer answer;
    PunelavohLengthsTold told;
    uint32_t *edges, *nodes;
} LongGraph;

static LongGraph long_graph(void) {
    PunelavohSettings a = in.settings;
    LongGraph g = {.told = punelavoh_lengths(a.k, 0, a.graph, (PunelavohSearchMaxima){1, 1, 1})};
    PunelavohWorkspace w = g.told.workspace;
    g.edges = lent(g.told.edges, 4);
    g.nodes = lent(g.told.nodes, 4);
    g.answer = punelavoh_graph(a.k, a.quality, in.reference, in.reference_length, in.ends, in.ends_length, in.bases, in.bases_length,
        in.qualities, in.qualities_length, a.graph, g.edges, g.told.edges, g.nodes, g.told.nodes, lent(w.vertices, 4), w.vertices,
        lent(w.edges, 4), w.edges, lent(w.index, 4), w.index, lent(w.nodes, 4), w.nodes, lent(w.open, 4), w.open);
    return g;
}

static void compare_graph(const PunelavohGraph *graph, const LongGraph *g) {
    expect(graph->answer.refusal == g->answer.refusal && graph->answer.edges == g->answer.edges && graph->answer.nodes == g->answer.nodes,
        "the answer of the graph");
    for (uint32_t i = 0; i < g->answer.edges && !failed; i++) {
        const PunelavohEdge *e = punelavoh_graph_edge(graph, i);
        const uint32_t row[] = {e->from, e->to, e->support, e->is_ref, e->sequence, e->place};
        expect(memcmp(row, g->edges + 6 * i, sizeof row) == 0, "an edge");
    }
    for (uint32_t i = 0; i < g->answer.nodes && !failed; i++) {
        const PunelavohNode *n = punelavoh_graph_node(graph, i);
        const uint32_t row[] = {n->from, n->to, n->count, n->depth};
        expect(memcmp(row, g->nodes + 4 * i, sizeof row) == 0, "a node");
    }
    expect(punelavoh_graph_edge(graph, g->answer.edges) == NULL && punelavoh_graph_edge(graph, UINT32_MAX) == NULL, "an edge beyond the last");
    expect(punelavoh_graph_node(graph, g->answer.nodes) == NULL && punelavoh_graph_node(graph, UINT32_MAX) == NULL, "a node beyond the last");
}

static void compare_graph_block(Block b, const PunelavohGraph *graph, const LongGraph *g) {
    const void *parts[] = {graph->edges, graph->nodes};
    const size_t lengths[] = {g->told.edges * 4, g->told.nodes * 4};
    expect(memcmp(parts[0], g->edges, lengths[0]) == 0 && memcmp(parts[1], g->nodes, lengths[1]) == 0, "the output of the graph in the block");
    bool kept = g->answer.refusal >= PUNELAVOH_REFUSED_K && g->answer.refusal <= PUNELAVOH_REFUSED_SHORT_SLICE;
    expect_rest(b, kept ? in.fill : 0, parts, lengths, 2, "the workspace of the graph in the block");
}

static void unfit_graph(Block b, size_t size, uint32_t refusal) {
    PunelavohGraph graph;
    expect_unfit(punelavoh_graph_in(in.settings, sample(), NULL, 0, &graph), refusal, "no block for the graph");
    expect(punelavoh_graph_edge(&graph, 0) == NULL && punelavoh_graph_node(&graph, 0) == NULL, "a graph without a block");
    if (size > 0)
        expect_unfit(punelavoh_graph_in(in.settings, sample(), b.memory, size - 1, &graph), refusal, "a block for the graph that is one byte short");
    for (size_t off = 1; off < PUNELAVOH_ALIGNMENT && size > 0; off++)
        expect_unfit(punelavoh_graph_in(in.settings, sample(), b.memory + off, size, &graph), refusal, "a block for the graph that is not aligned");
    expect_untouched(b, "a block that the graph may not use");
}

static uint32_t try_graph(void) {
    LongGraph g = long_graph();
    size_t size = punelavoh_graph_size(in.settings);
    expect((size == 0) == (g.told.refusal != 0), "the size for the graph");
    Block b = make_block(size);
    unfit_graph(b, size, g.answer.refusal);
    PunelavohGraph graph;
    for (int turn = 0; turn < 2; turn++) {
        punelavoh_graph_in(in.settings, sample(), b.memory, size, &graph);
        compare_graph(&graph, &g);
        if (size > 0 && !failed)
            compare_graph_block(b, &graph, &g);
    }
    end_block(b);
    free_slices();
    return g.answer.refusal;
}

/* ---- the whole */

static void print_counts(const char *call, const unsigned long seen[]) {
    printf("%s, times each refusal:", call);
    for (int n = 0; n < NUMBERS; n++)
        if (seen[n] > 0)
            printf(" %d: %lu", n, seen[n]);
    printf("\n");
}

int main(int count, char **words) {
    if (count != 3) {
        fprintf(stderr, "usage: block N SEED\n");
        return 2;
    }
    unsigned long inputs = strtoul(words[1], NULL, 10), seed = strtoul(words[2], NULL, 10), bad = 0, lists[NUMBERS] = {0}, graphs[NUMBERS] = {0};
    for (unsigned long i = 0; i < inputs; i++) {
        make_input(seed, i);
        failed = false;
        lists[try_list() % NUMBERS]++;
        graphs[try_graph() % NUMBERS]++;
        if (failed)
            printf("  in input %lu of seed %lu\n", i, seed);
        bad += failed;
    }
    print_counts("the list", lists);
    print_counts("edges and trees", graphs);
    printf("%lu passed, %lu failed\n", inputs - bad, bad);
    return bad > 0;
}
