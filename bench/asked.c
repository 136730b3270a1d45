#include "asked.h"

#include "beside.h"
#include "reference.h"

const struct question QUESTIONS[QUESTION_COUNT] = {
    {"and, rare", "r0 and r1"},
    {"and, rare with common", "r0 and c0"},
    {"and, common", "c0 and c1"},
    {"or, five words", "m0 or m1 or m2 or m3 or m4"},
    {"or, five common", "c0 or c1 or c2 or c3 or c4"},
    {"not", "c0 not m0"},
    {"ten words", "c0 and m0 or r0 not m1 or c1 and c2 not r1 or m2 and m3 or r2"},
    {"nested", "((c0 or m0) and (c1 or (m1 not r0))) not (c2 and (m2 or r1))"},
};

const struct method METHODS[METHOD_COUNT] = {
    {"union, scan line", naburain_union_scan_line, OLD(naburain_union_scan_line), engine_union, reference_union},
    {"union, active interval", naburain_union_active_interval, OLD(naburain_union_active_interval), engine_union, reference_union},
    {"intersect, twin heap", naburain_intersection_twin_heap, OLD(naburain_intersection_twin_heap), engine_intersection, reference_intersection},
    {"intersect, probing", naburain_intersection_probing, OLD(naburain_intersection_probing), engine_intersection, reference_intersection},
};

const struct lists ASKED[ASKED_COUNT] = {
    {"c0 c1 c2 c3", {0, 1, 2, 3}, 4},
    {"c0 m0 r0", {0, 10, 20}, 3},
};
