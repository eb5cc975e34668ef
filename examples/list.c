/* The list of CAACTGG with the reads CAAGTGG, CAACTGG and CAACTGG, two paths asked: score, bases, and each edge's origin with the bytes there. */
#include "punelavoh.h"
#include <math.h>
#include <stdio.h>
#include <stdlib.h>
#include <string.h>

int main(void) {
    const uint8_t reference[] = "CAACTGG", bases[] = "CAAGTGGCAACTGGCAACTGG";
    const uint32_t ends[] = {7, 14, 21};
    uint8_t qualities[21];
    memset(qualities, 40, sizeof qualities);
    double column[64] = {0};
    for (int n = 1; n < 64; n++)
        column[n] = log10(n);
    PunelavohSettings settings = {.k = 3, .quality = 10, .asked = 2, .threshold = 9, .recovery = false,
        .graph = {.vertices = 128, .edges = 256, .nodes = 256}, .search = {.path_edges = 16, .active = 8, .pushes = 64}};
    PunelavohSample sample = {.reference = reference, .reference_length = 7, .ends = ends, .ends_length = 3, .bases = bases, .bases_length = 21,
        .qualities = qualities, .qualities_length = 21, .column = column, .column_length = 64};
    size_t size = punelavoh_list_size(settings);
    void *memory = malloc(size);
    PunelavohList list;
    if (punelavoh_list_in(settings, sample, memory, size, &list) != PUNELAVOH_ACCEPTED) {
        fprintf(stderr, "%s\n", punelavoh_refusal_words(list.answer.refusal));
        return 1;
    }
    printf("refusal %u paths %u pushes %u\n", list.answer.refusal, list.answer.paths, list.answer.pushes);
    for (uint32_t r = 0; r < list.answer.paths; r++) {
        PunelavohBytes path = punelavoh_list_bases(&list, r);
        printf("%f %.*s", punelavoh_list_row(&list, r)->score, (int)path.length, (const char *)path.bytes);
        for (uint32_t e = 0; e < punelavoh_list_row(&list, r)->edges; e++) {
            PunelavohOrigin o = punelavoh_list_origin(&list, r, e);
            PunelavohBytes there = punelavoh_origin_bytes(settings.k, sample, o.sequence, o.place);
            printf(" %u:%u=%.*s", o.sequence, o.place, (int)there.length, (const char *)there.bytes);
        }
        printf("\n");
    }
    free(memory);
}
