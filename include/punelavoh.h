/* The calls of the static library libpunelavoh.a, which `tools/staticlib` proves and writes. Made by tools/c-header, and not by hand.

   All memory is the caller's, before, during and after a call: no call allocates, and none keeps a pointer. Calls may be made from several threads at
   once, each with memory of its own to write to.

   There are two ways to call. `punelavoh_list_in` and `punelavoh_graph_in`, at the end of this file, take one block of memory, of as many bytes as
   `punelavoh_list_size` or `punelavoh_graph_size` says, and cut it. `punelavoh_list` and `punelavoh_graph` are lent each table by itself, for callers
   that place their tables: of each it is said how many elements it needs, where `told` is the answer of `punelavoh_lengths`.

   Of a long call: a slice is two arguments, a pointer and a number of elements. The pointer is not null and is aligned for its elements, also where
   there are none. What is written to overlaps nothing else. A `bool` that is lent is 0 or 1, also in `rows` before a call. What is `read` stays as it
   is. Of what is `written`, elements beyond the answer stay as they were. What is `workspace` may hold anything before; after a call it is 0 over the
   length told, but for refusals 1 to 7, which touch nothing. */
#ifndef PUNELAVOH_H
#define PUNELAVOH_H
#include <stdbool.h>
#include <stddef.h>
#include <stdint.h>

#ifdef __cplusplus
extern "C" {
#endif

#define PUNELAVOH_VERSION "0.5.5"
#define PUNELAVOH_VERSION_MAJOR 0
#define PUNELAVOH_VERSION_MINOR 5
#define PUNELAVOH_VERSION_PATCH 5

/* What an answer holds in `refusal`. 1 to 7 are looked at in this order. A refused answer holds 0 in every other field. */
typedef enum {
    PUNELAVOH_ACCEPTED = 0,                 /* accepted */
    PUNELAVOH_REFUSED_K = 1,                /* k outside limits */
    PUNELAVOH_REFUSED_REFERENCE_LENGTH = 2, /* reference length */
    PUNELAVOH_REFUSED_REFERENCE_BYTE = 3,   /* reference byte not A C G T N */
    PUNELAVOH_REFUSED_READS = 4,            /* read ends fall, last end (0 without reads) is not the base count, qualities differ in length, too
                                               many reads or bases */
    PUNELAVOH_REFUSED_MAXIMUM = 5,          /* paths asked or a maximum outside limits */
    PUNELAVOH_REFUSED_COLUMN = 6,           /* column */
    PUNELAVOH_REFUSED_SHORT_SLICE = 7,      /* a lent slice shorter than told */
    PUNELAVOH_REFUSED_GRAPH_SIZE = 8,       /* vertex or edge above its maximum */
    PUNELAVOH_REFUSED_TREE_NODES = 9,       /* tree node above its maximum */
    PUNELAVOH_REFUSED_NO_PLACE = 10,        /* a count or total has no place in the column */
    PUNELAVOH_REFUSED_PATH_SIZE = 11,       /* a path's edges or active trees above their maximum */
    PUNELAVOH_REFUSED_PUSHES = 12,          /* a push beyond the maximum */
    PUNELAVOH_REFUSED_ORIGIN = 13           /* origin naming no sequence, or whose k+1 bytes do not fit it */
} PunelavohRefusal;

/* The line of a number in this table. */
static inline const char *punelavoh_refusal_words(uint32_t refusal)
{
    switch (refusal) {
    case PUNELAVOH_ACCEPTED:
        return "accepted";
    case PUNELAVOH_REFUSED_K:
        return "k outside limits";
    case PUNELAVOH_REFUSED_REFERENCE_LENGTH:
        return "reference length";
    case PUNELAVOH_REFUSED_REFERENCE_BYTE:
        return "reference byte not A C G T N";
    case PUNELAVOH_REFUSED_READS:
        return "read ends fall, last end (0 without reads) is not the base count, qualities differ in length, too many reads or bases";
    case PUNELAVOH_REFUSED_MAXIMUM:
        return "paths asked or a maximum outside limits";
    case PUNELAVOH_REFUSED_COLUMN:
        return "column";
    case PUNELAVOH_REFUSED_SHORT_SLICE:
        return "a lent slice shorter than told";
    case PUNELAVOH_REFUSED_GRAPH_SIZE:
        return "vertex or edge above its maximum";
    case PUNELAVOH_REFUSED_TREE_NODES:
        return "tree node above its maximum";
    case PUNELAVOH_REFUSED_NO_PLACE:
        return "a count or total has no place in the column";
    case PUNELAVOH_REFUSED_PATH_SIZE:
        return "a path's edges or active trees above their maximum";
    case PUNELAVOH_REFUSED_PUSHES:
        return "a push beyond the maximum";
    case PUNELAVOH_REFUSED_ORIGIN:
        return "origin naming no sequence, or whose k+1 bytes do not fit it";
    default:
        return "a number that this header does not have";
    }
}

/* The caller's maxima for the graph and its trees; the symbolic vertex and edge count, and so do the roots. */
typedef struct {
    uint32_t vertices; /* 2 to 4,096 */
    uint32_t edges;    /* 1 to 8,192 */
    uint32_t nodes;    /* 1 to 16,384 */
} PunelavohGraphMaxima;

/* The caller's maxima for the search: edges in a path, active trees in a path, pushes. */
typedef struct {
    uint32_t path_edges; /* 1 to 4,096 */
    uint32_t active;     /* 1 to 64 */
    uint32_t pushes;     /* 1 to 32,768 */
} PunelavohSearchMaxima;

/* How many elements each workspace slice needs: numbers of 32 bits, but for `active`, of 16, and `scores`, of f64. The call for edges and trees is
   lent the first five; the call for the list is lent all but `open`, and three slices of `columns`, the first of them f64. */
typedef struct {
    size_t vertices; /* the graph's vertices */
    size_t edges;    /* the graph's edges */
    size_t index;    /* by which a kmer's vertex is found; then the only edge that leaves a vertex */
    size_t nodes;    /* the nodes of the trees */
    size_t open;     /* the open trees of a walk */
    size_t targets;  /* where each edge leads */
    size_t paths;    /* the records of the paths */
    size_t scores;   /* scores of the paths */
    size_t active;   /* active trees of the paths */
    size_t queue;    /* the waiting paths, as a heap */
    size_t closed;   /* the closed paths */
    size_t order;    /* the pivotal edges in their order */
    size_t marks;    /* marks by edge, for the pivotal ones */
    size_t walks;    /* open trees, then edges to look at, then offers of a fork, then edges of the closed paths */
    size_t columns;  /* each of three columns that the rows are made in */
} PunelavohWorkspace;

/* The answer of `lengths`, for C: the number of a refusal, or 0 and how many elements each slice needs; there are two slices of `origins` numbers. */
typedef struct {
    uint32_t refusal;
    size_t edges;
    size_t nodes;
    size_t paths;
    size_t bases;
    size_t origins;
    PunelavohWorkspace workspace;
} PunelavohLengthsTold;

/* An origin's part for C, which takes no slice back: the number of a refusal, or 0 and start and length in the read bases (1) or in the reference
   (0). */
typedef struct {
    uint32_t refusal;
    uint32_t in_reads;
    size_t start;
    size_t length;
} PunelavohOriginAnswer;

/* The answer of `graph`, for C: the number of a refusal, or 0 and how many rows of edges and of nodes were written. */
typedef struct {
    uint32_t refusal;
    uint32_t edges;
    uint32_t nodes;
} PunelavohGraphAnswer;

/* A path of the list. `is_ref` is the Rust's reference flag, which is always false. */
typedef struct {
    double score;
    uint32_t closing; /* its closing number: paths are counted from 1 as they close */
    uint32_t edges;   /* it has k + edges bases */
    bool is_ref;
} PunelavohPathRow;

/* What a run is asked for: k, the minimum quality, the number of paths, the threshold, recovery, and the maxima. */
typedef struct {
    uint32_t k;                   /* the kmer size; 2 to 128 */
    uint8_t quality;              /* the minimum quality: a base below it is not used */
    uint32_t asked;               /* paths asked; 0 to 128 */
    int32_t threshold;            /* the evidence threshold, any number */
    bool recovery;                /* whether paths are recovered */
    PunelavohGraphMaxima graph;
    PunelavohSearchMaxima search;
} PunelavohSettings;

/* The answer of the call for the list, for C: the number of a refusal, or 0 and how many paths are listed, the pushes made, and the waiting mark. */
typedef struct {
    uint32_t refusal;
    uint32_t paths;
    uint32_t pushes;
    uint32_t mark;    /* no less than the longest waiting list, no more than the pushes */
} PunelavohListAnswer;

/* Writes the rows of edges and of tree nodes.

     k           the kmer size; 2 to 128
     quality     the minimum quality: a base below it is not used
     reference   read: its bases, k to 1,024 letters of A C G T N
     ends        read: for each read where it ends in `bases`, exclusive; they never fall, and the last is the number of bases; up to 512
     bases       read: of all reads, one after the other; up to 32,768
     qualities   read: one for each base, numbers and not the characters of a text
     maxima      the maxima of the graph and its trees
     edges       written, told.edges (rows of 6, PunelavohEdge): all edges, rising by ends; is_ref is 1 for an edge of the reference, else 0
     nodes       written, told.nodes (rows of 4, PunelavohNode): all tree nodes, tree after tree; a root has its vertex as both ends and depth 0
     w_vertices  workspace, told.workspace.vertices: the graph's vertices
     w_edges     workspace, told.workspace.edges: the graph's edges
     w_index     workspace, told.workspace.index: by which a kmer's vertex is found; then the only edge that leaves a vertex
     w_nodes     workspace, told.workspace.nodes: the nodes of the trees
     w_open      workspace, told.workspace.open: the open trees of a walk */
PunelavohGraphAnswer punelavoh_graph(
    uint32_t k,
    uint8_t quality,
    const uint8_t *reference, size_t reference_length,
    const uint32_t *ends, size_t ends_length,
    const uint8_t *bases, size_t bases_length,
    const uint8_t *qualities, size_t qualities_length,
    PunelavohGraphMaxima maxima,
    uint32_t *edges, size_t edges_length,
    uint32_t *nodes, size_t nodes_length,
    uint32_t *w_vertices, size_t w_vertices_length,
    uint32_t *w_edges, size_t w_edges_length,
    uint32_t *w_index, size_t w_index_length,
    uint32_t *w_nodes, size_t w_nodes_length,
    uint32_t *w_open, size_t w_open_length);

/* Tells how many elements each slice needs.

     k       the kmer size; 2 to 128
     paths   paths asked; 0 to 128
     graph   the maxima of the graph and its trees
     search  the maxima of the search */
PunelavohLengthsTold punelavoh_lengths(
    uint32_t k,
    uint32_t paths,
    PunelavohGraphMaxima graph,
    PunelavohSearchMaxima search);

/* Tells which part of the reference (in_reads 0) or of the read bases (in_reads 1) an origin names.

     k          the kmer size; 2 to 128
     reference  read: its bases, k to 1,024 letters of A C G T N
     ends       read: for each read where it ends in `bases`, exclusive; they never fall, and the last is the number of bases; up to 512
     bases      read: of all reads, one after the other; up to 32,768
     sequence   0 for the reference, else the read, from 1
     place      of the first byte in that sequence, from 0 */
PunelavohOriginAnswer punelavoh_origin(
    uint32_t k,
    const uint8_t *reference, size_t reference_length,
    const uint32_t *ends, size_t ends_length,
    const uint8_t *bases, size_t bases_length,
    uint32_t sequence,
    uint32_t place);

/* Writes the list. Its rows are first made in three columns, which are cleared like the rest of the workspace.

     settings      what the run is asked for
     reference     read: its bases, k to 1,024 letters of A C G T N
     ends          read: for each read where it ends in `bases`, exclusive; they never fall, and the last is the number of bases; up to 512
     bases         read: of all reads, one after the other; up to 32,768
     qualities     read: one for each base, numbers and not the characters of a text
     column        read: place n holds log10 of n; 2 to 65,536 places
     rows          written, told.paths: the paths, best first
     out_bases     written, told.bases: the bases of the path in row r, from r * (k + path_edges) on
     sequences     written, told.origins: for each edge of the path in row r the sequence of its origin, from r * path_edges on
     places        written, told.origins: and the place in that sequence
     w_vertices    workspace, told.workspace.vertices: the graph's vertices
     w_edges       workspace, told.workspace.edges: the graph's edges
     w_index       workspace, told.workspace.index: by which a kmer's vertex is found; then the only edge that leaves a vertex
     w_nodes       workspace, told.workspace.nodes: the nodes of the trees
     w_targets     workspace, told.workspace.targets: where each edge leads
     w_paths       workspace, told.workspace.paths: the records of the paths
     w_scores      workspace, told.workspace.scores: scores of the paths
     w_active      workspace, told.workspace.active: active trees of the paths
     w_queue       workspace, told.workspace.queue: the waiting paths, as a heap
     w_closed      workspace, told.workspace.closed: the closed paths
     w_order       workspace, told.workspace.order: the pivotal edges in their order
     w_marks       workspace, told.workspace.marks: marks by edge, for the pivotal ones
     w_walks       workspace, told.workspace.walks: open trees, then edges to look at, then offers of a fork, then edges of the closed paths
     row_scores    workspace, told.workspace.columns: the column of the scores
     row_closings  workspace, told.workspace.columns: the column of the closing numbers
     row_edges     workspace, told.workspace.columns: the column of the edge counts */
PunelavohListAnswer punelavoh_list(
    PunelavohSettings settings,
    const uint8_t *reference, size_t reference_length,
    const uint32_t *ends, size_t ends_length,
    const uint8_t *bases, size_t bases_length,
    const uint8_t *qualities, size_t qualities_length,
    const double *column, size_t column_length,
    PunelavohPathRow *rows, size_t rows_length,
    uint8_t *out_bases, size_t out_bases_length,
    uint32_t *sequences, size_t sequences_length,
    uint32_t *places, size_t places_length,
    uint32_t *w_vertices, size_t w_vertices_length,
    uint32_t *w_edges, size_t w_edges_length,
    uint32_t *w_index, size_t w_index_length,
    uint32_t *w_nodes, size_t w_nodes_length,
    uint32_t *w_targets, size_t w_targets_length,
    uint32_t *w_paths, size_t w_paths_length,
    double *w_scores, size_t w_scores_length,
    uint16_t *w_active, size_t w_active_length,
    uint32_t *w_queue, size_t w_queue_length,
    uint32_t *w_closed, size_t w_closed_length,
    uint32_t *w_order, size_t w_order_length,
    uint32_t *w_marks, size_t w_marks_length,
    uint32_t *w_walks, size_t w_walks_length,
    double *row_scores, size_t row_scores_length,
    uint32_t *row_closings, size_t row_closings_length,
    uint32_t *row_edges, size_t row_edges_length);

/* ---- one block of memory */

/* A block begins at a multiple of this, as memory of malloc does. */
#define PUNELAVOH_ALIGNMENT 8

/* What is read. Each pointer has its number of elements beside it; where that is 0, the pointer is not looked at and may be null. */
typedef struct {
    /* its bases, k to 1,024 letters of A C G T N */
    const uint8_t *reference; size_t reference_length;
    /* for each read where it ends in `bases`, exclusive; they never fall, and the last is the number of bases; up to 512 */
    const uint32_t *ends; size_t ends_length;
    /* of all reads, one after the other; up to 32,768 */
    const uint8_t *bases; size_t bases_length;
    /* one for each base, numbers and not the characters of a text */
    const uint8_t *qualities; size_t qualities_length;
    /* place n holds log10 of n; 2 to 65,536 places */
    const double *column; size_t column_length;
} PunelavohSample;

/* Where the k + 1 bytes of an edge stand. */
typedef struct {
    uint32_t sequence; /* 0 for the reference, else the read, from 1 */
    uint32_t place;    /* of the first byte in that sequence, from 0 */
} PunelavohOrigin;

/* Bytes inside memory of the caller's; null and 0 where there are none. */
typedef struct {
    const uint8_t *bytes;
    size_t length;
} PunelavohBytes;

/* Inside: where the slices point to that have no elements, since the long calls take no null pointer. Nothing is read or written there. */
static inline void *punelavoh_inner_nothing(void)
{
    static uint64_t nothing;
    return &nothing;
}

/* Inside: whether a block can be cut. */
static inline bool punelavoh_inner_fits(size_t needed, const void *memory, size_t size)
{
    return size >= needed && memory != NULL && (uintptr_t)memory % PUNELAVOH_ALIGNMENT == 0;
}

/* Inside: the sample without null pointers. */
static inline PunelavohSample punelavoh_inner_sample(PunelavohSample sample)
{
    if (sample.reference_length == 0)
        sample.reference = (const uint8_t *)punelavoh_inner_nothing();
    if (sample.ends_length == 0)
        sample.ends = (const uint32_t *)punelavoh_inner_nothing();
    if (sample.bases_length == 0)
        sample.bases = (const uint8_t *)punelavoh_inner_nothing();
    if (sample.qualities_length == 0)
        sample.qualities = (const uint8_t *)punelavoh_inner_nothing();
    if (sample.column_length == 0)
        sample.column = (const double *)punelavoh_inner_nothing();
    return sample;
}

/* Inside: lengths of which every one is 0. */
static inline PunelavohLengthsTold punelavoh_inner_none(void)
{
    const PunelavohLengthsTold none = {0, 0, 0, 0, 0, 0, {0, 0, 0, 0, 0, 0, 0, 0, 0, 0, 0, 0, 0, 0, 0}};
    return none;
}

/* A row of `edges`: all edges, rising by ends; is_ref is 1 for an edge of the reference, else 0. */
typedef struct {
    uint32_t from;
    uint32_t to;
    uint32_t support;
    uint32_t is_ref;
    uint32_t sequence;
    uint32_t place;
} PunelavohEdge;
typedef char punelavoh_inner_edge_is_its_numbers[sizeof(PunelavohEdge) == 6 * sizeof(uint32_t) ? 1 : -1];

/* A row of `nodes`: all tree nodes, tree after tree; a root has its vertex as both ends and depth 0. */
typedef struct {
    uint32_t from;
    uint32_t to;
    uint32_t count;
    uint32_t depth;
} PunelavohNode;
typedef char punelavoh_inner_node_is_its_numbers[sizeof(PunelavohNode) == 4 * sizeof(uint32_t) ? 1 : -1];

/* Inside: the lengths told for `punelavoh_graph`, each 0 where the settings are refused. */
static inline PunelavohLengthsTold punelavoh_inner_graph_told(PunelavohSettings settings)
{
    const PunelavohSearchMaxima search = {1, 1, 1}; /* the least: the call is given none, and its slices do not depend on it */
    return punelavoh_lengths(settings.k, 0, settings.graph, search);
}

/* Inside: the bytes of these lengths. */
static inline size_t punelavoh_inner_graph_bytes(PunelavohLengthsTold told)
{
    size_t size = 0;
    size += (told.edges + told.nodes + told.workspace.vertices + told.workspace.edges + told.workspace.index + told.workspace.nodes +
        told.workspace.open) * sizeof(uint32_t);
    return size;
}

/* How many bytes `punelavoh_graph_in` needs with these settings; 0 where they are refused. */
static inline size_t punelavoh_graph_size(PunelavohSettings settings)
{
    return punelavoh_inner_graph_bytes(punelavoh_inner_graph_told(settings));
}

/* What `punelavoh_graph_in` leaves: the answer, and where in the block the functions below find the rest. */
typedef struct {
    PunelavohGraphAnswer answer;
    PunelavohSettings settings;
    const PunelavohEdge *edges;
    const PunelavohNode *nodes;
} PunelavohGraph;

/* As `punelavoh_graph`, with all that it is lent for writing cut from one block. The block begins at a multiple of PUNELAVOH_ALIGNMENT, overlaps
   nothing else, and may hold anything. Where it is too small, null or not so aligned, it is not touched, and the call is refused: by what comes
   first in the table, PUNELAVOH_REFUSED_SHORT_SLICE where all else is good. Returns the refusal, which is in the answer too. */
static inline uint32_t punelavoh_graph_in(PunelavohSettings settings, PunelavohSample sample, void *memory, size_t size, PunelavohGraph *result)
{
    PunelavohLengthsTold told = punelavoh_inner_graph_told(settings);
    bool fits = punelavoh_inner_fits(punelavoh_inner_graph_bytes(told), memory, size);
    unsigned char *next = (unsigned char *)(fits ? memory : punelavoh_inner_nothing());
    if (!fits) /* slices without elements: the call then tells by itself which rule comes first */
        told = punelavoh_inner_none();
    sample = punelavoh_inner_sample(sample);
    uint32_t *edges = (uint32_t *)(void *)next; next += told.edges * sizeof *edges;
    uint32_t *nodes = (uint32_t *)(void *)next; next += told.nodes * sizeof *nodes;
    uint32_t *w_vertices = (uint32_t *)(void *)next; next += told.workspace.vertices * sizeof *w_vertices;
    uint32_t *w_edges = (uint32_t *)(void *)next; next += told.workspace.edges * sizeof *w_edges;
    uint32_t *w_index = (uint32_t *)(void *)next; next += told.workspace.index * sizeof *w_index;
    uint32_t *w_nodes = (uint32_t *)(void *)next; next += told.workspace.nodes * sizeof *w_nodes;
    uint32_t *w_open = (uint32_t *)(void *)next;
    result->answer = punelavoh_graph(settings.k, settings.quality, sample.reference, sample.reference_length, sample.ends, sample.ends_length,
        sample.bases, sample.bases_length, sample.qualities, sample.qualities_length, settings.graph, edges, told.edges, nodes, told.nodes,
        w_vertices, told.workspace.vertices, w_edges, told.workspace.edges, w_index, told.workspace.index, w_nodes, told.workspace.nodes, w_open,
        told.workspace.open);
    result->settings = settings;
    result->edges = (const PunelavohEdge *)(const void *)edges;
    result->nodes = (const PunelavohNode *)(const void *)nodes;
    return result->answer.refusal;
}

/* Row `row` of `edges`, from 0; null beyond the last. */
static inline const PunelavohEdge *punelavoh_graph_edge(const PunelavohGraph *graph, uint32_t row)
{
    return row < graph->answer.edges ? graph->edges + row : NULL;
}

/* Row `row` of `nodes`, from 0; null beyond the last. */
static inline const PunelavohNode *punelavoh_graph_node(const PunelavohGraph *graph, uint32_t row)
{
    return row < graph->answer.nodes ? graph->nodes + row : NULL;
}

/* Inside: the lengths told for `punelavoh_list`, each 0 where the settings are refused. */
static inline PunelavohLengthsTold punelavoh_inner_list_told(PunelavohSettings settings)
{
    return punelavoh_lengths(settings.k, settings.asked, settings.graph, settings.search);
}

/* Inside: the bytes of these lengths. */
static inline size_t punelavoh_inner_list_bytes(PunelavohLengthsTold told)
{
    size_t size = 0;
    size += told.paths * sizeof(PunelavohPathRow);
    size += (told.workspace.scores + told.workspace.columns) * sizeof(double);
    size += (told.origins + told.origins + told.workspace.vertices + told.workspace.edges + told.workspace.index + told.workspace.nodes +
        told.workspace.targets + told.workspace.paths + told.workspace.queue + told.workspace.closed + told.workspace.order + told.workspace.marks
        + told.workspace.walks + told.workspace.columns + told.workspace.columns) * sizeof(uint32_t);
    size += told.workspace.active * sizeof(uint16_t);
    size += told.bases * sizeof(uint8_t);
    return size;
}

/* How many bytes `punelavoh_list_in` needs with these settings; 0 where they are refused. */
static inline size_t punelavoh_list_size(PunelavohSettings settings)
{
    return punelavoh_inner_list_bytes(punelavoh_inner_list_told(settings));
}

/* What `punelavoh_list_in` leaves: the answer, and where in the block the functions below find the rest. */
typedef struct {
    PunelavohListAnswer answer;
    PunelavohSettings settings;
    const PunelavohPathRow *rows;
    const uint8_t *out_bases;
    const uint32_t *sequences;
    const uint32_t *places;
} PunelavohList;

/* As `punelavoh_list`, with all that it is lent for writing cut from one block. The block begins at a multiple of PUNELAVOH_ALIGNMENT, overlaps
   nothing else, and may hold anything; the flags in its rows are set to false before the call. Where it is too small, null or not so aligned, it
   is not touched, and the call is refused: by what comes first in the table, PUNELAVOH_REFUSED_SHORT_SLICE where all else is good. Returns the
   refusal, which is in the answer too. */
static inline uint32_t punelavoh_list_in(PunelavohSettings settings, PunelavohSample sample, void *memory, size_t size, PunelavohList *result)
{
    PunelavohLengthsTold told = punelavoh_inner_list_told(settings);
    bool fits = punelavoh_inner_fits(punelavoh_inner_list_bytes(told), memory, size);
    unsigned char *next = (unsigned char *)(fits ? memory : punelavoh_inner_nothing());
    if (!fits) /* slices without elements: the call then tells by itself which rule comes first */
        told = punelavoh_inner_none();
    sample = punelavoh_inner_sample(sample);
    PunelavohPathRow *rows = (PunelavohPathRow *)(void *)next; next += told.paths * sizeof *rows;
    double *w_scores = (double *)(void *)next; next += told.workspace.scores * sizeof *w_scores;
    double *row_scores = (double *)(void *)next; next += told.workspace.columns * sizeof *row_scores;
    uint32_t *sequences = (uint32_t *)(void *)next; next += told.origins * sizeof *sequences;
    uint32_t *places = (uint32_t *)(void *)next; next += told.origins * sizeof *places;
    uint32_t *w_vertices = (uint32_t *)(void *)next; next += told.workspace.vertices * sizeof *w_vertices;
    uint32_t *w_edges = (uint32_t *)(void *)next; next += told.workspace.edges * sizeof *w_edges;
    uint32_t *w_index = (uint32_t *)(void *)next; next += told.workspace.index * sizeof *w_index;
    uint32_t *w_nodes = (uint32_t *)(void *)next; next += told.workspace.nodes * sizeof *w_nodes;
    uint32_t *w_targets = (uint32_t *)(void *)next; next += told.workspace.targets * sizeof *w_targets;
    uint32_t *w_paths = (uint32_t *)(void *)next; next += told.workspace.paths * sizeof *w_paths;
    uint32_t *w_queue = (uint32_t *)(void *)next; next += told.workspace.queue * sizeof *w_queue;
    uint32_t *w_closed = (uint32_t *)(void *)next; next += told.workspace.closed * sizeof *w_closed;
    uint32_t *w_order = (uint32_t *)(void *)next; next += told.workspace.order * sizeof *w_order;
    uint32_t *w_marks = (uint32_t *)(void *)next; next += told.workspace.marks * sizeof *w_marks;
    uint32_t *w_walks = (uint32_t *)(void *)next; next += told.workspace.walks * sizeof *w_walks;
    uint32_t *row_closings = (uint32_t *)(void *)next; next += told.workspace.columns * sizeof *row_closings;
    uint32_t *row_edges = (uint32_t *)(void *)next; next += told.workspace.columns * sizeof *row_edges;
    uint16_t *w_active = (uint16_t *)(void *)next; next += told.workspace.active * sizeof *w_active;
    uint8_t *out_bases = (uint8_t *)(void *)next;
    for (size_t r = 0; r < told.paths; r++)
        rows[r].is_ref = false;
    result->answer = punelavoh_list(settings, sample.reference, sample.reference_length, sample.ends, sample.ends_length, sample.bases,
        sample.bases_length, sample.qualities, sample.qualities_length, sample.column, sample.column_length, rows, told.paths, out_bases,
        told.bases, sequences, told.origins, places, told.origins, w_vertices, told.workspace.vertices, w_edges, told.workspace.edges, w_index,
        told.workspace.index, w_nodes, told.workspace.nodes, w_targets, told.workspace.targets, w_paths, told.workspace.paths, w_scores,
        told.workspace.scores, w_active, told.workspace.active, w_queue, told.workspace.queue, w_closed, told.workspace.closed, w_order,
        told.workspace.order, w_marks, told.workspace.marks, w_walks, told.workspace.walks, row_scores, told.workspace.columns, row_closings,
        told.workspace.columns, row_edges, told.workspace.columns);
    result->settings = settings;
    result->rows = (const PunelavohPathRow *)(const void *)rows;
    result->sequences = (const uint32_t *)(const void *)sequences;
    result->places = (const uint32_t *)(const void *)places;
    result->out_bases = (const uint8_t *)(const void *)out_bases;
    return result->answer.refusal;
}

/* Row `row` of `rows`, from 0; null beyond the last. */
static inline const PunelavohPathRow *punelavoh_list_row(const PunelavohList *list, uint32_t row)
{
    return row < list->answer.paths ? list->rows + row : NULL;
}

/* The bases of the path in row `row`, in the block. */
static inline PunelavohBytes punelavoh_list_bases(const PunelavohList *list, uint32_t row)
{
    PunelavohBytes part = {NULL, 0};
    if (row < list->answer.paths) {
        part.bytes = list->out_bases + (size_t)row * ((size_t)list->settings.k + list->settings.search.path_edges);
        part.length = (size_t)list->settings.k + list->rows[row].edges;
    }
    return part;
}

/* The origin of edge `edge`, from 0, of the path in row `row`; beyond the last, one that names no sequence. */
static inline PunelavohOrigin punelavoh_list_origin(const PunelavohList *list, uint32_t row, uint32_t edge)
{
    PunelavohOrigin origin = {UINT32_MAX, UINT32_MAX};
    if (row < list->answer.paths && edge < list->rows[row].edges) {
        size_t at = (size_t)row * list->settings.search.path_edges + edge;
        origin.sequence = list->sequences[at];
        origin.place = list->places[at];
    }
    return origin;
}

/* The k + 1 bytes at an origin, in the reference or in the read bases of the sample; none where `punelavoh_origin` refuses. */
static inline PunelavohBytes punelavoh_origin_bytes(uint32_t k, PunelavohSample sample, uint32_t sequence, uint32_t place)
{
    PunelavohBytes part = {NULL, 0};
    sample = punelavoh_inner_sample(sample);
    PunelavohOriginAnswer answer = punelavoh_origin(k, sample.reference, sample.reference_length, sample.ends, sample.ends_length, sample.bases,
        sample.bases_length, sequence, place);
    if (answer.refusal == PUNELAVOH_ACCEPTED) {
        part.bytes = (answer.in_reads ? sample.bases : sample.reference) + answer.start;
        part.length = answer.length;
    }
    return part;
}

#ifdef __cplusplus
}
#endif
#endif
