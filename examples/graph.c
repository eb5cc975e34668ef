/* Case 5 of document 01: the graph of CAACTGG with the read CAAGTGG, and the bytes at each edge's origin; the symbolic edge has none. */
#include "punelavoh.h"
#include <stdio.h>
#include <stdlib.h>

int main(void) {
    const uint8_t reference[] = "CAACTGG", bases[] = "CAAGTGG", qualities[] = {40, 40, 40, 40, 40, 40, 40};
    const uint32_t ends[] = {7};
    PunelavohSettings settings = {.k = 3, .quality = 10, .graph = {.vertices = 128, .edges = 256, .nodes = 256}};
    PunelavohSample sample = {.reference = reference, .reference_length = 7, .ends = ends, .ends_length = 1, .bases = bases, .bases_length = 7,
        .qualities = qualities, .qualities_length = 7};
    size_t size = punelavoh_graph_size(settings);
    void *memory = malloc(size);
    PunelavohGraph graph;
    if (punelavoh_graph_in(settings, sample, memory, size, &graph) != PUNELAVOH_ACCEPTED) {
        fprintf(stderr, "%s\n", punelavoh_refusal_words(graph.answer.refusal));
        return 1;
    }
    printf("refusal %u edges %u nodes %u\n", graph.answer.refusal, graph.answer.edges, graph.answer.nodes);
    for (uint32_t i = 0; i < graph.answer.edges; i++) {
        const PunelavohEdge *e = punelavoh_graph_edge(&graph, i);
        PunelavohBytes there = punelavoh_origin_bytes(settings.k, sample, e->sequence, e->place);
        printf("%u %u support %u mark %u origin %u:%u ", e->from, e->to, e->support, e->is_ref, e->sequence, e->place);
        printf("%.*s\n", (int)there.length, there.length ? (const char *)there.bytes : "");
    }
    for (uint32_t i = 0; i < graph.answer.nodes; i++) {
        const PunelavohNode *n = punelavoh_graph_node(&graph, i);
        printf("node %u %u count %u depth %u\n", n->from, n->to, n->count, n->depth);
    }
    free(memory);
}
