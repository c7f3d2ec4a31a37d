/* The calls of include/kiltgrit.h on memory, heads and arguments of any content: random calls, refused and accepted.
 * After each one all that it may not write, its arguments too, and the whole head that comes back are compared BY BITS,
 * NaNs of any sign and payload among them; a number that was passed or worked out is compared by bits or as a NaN. The
 * number of each refusal, the places that an accepted call writes and the exponential that a stale cell gets are worked
 * out here from documents 01 and 02, apart from the library, whose exp and log alone they take. A query's value is held
 * against the plain call's, wherever all its cells are what their inputs give.
 *
 * usage: boundary [CALLS [SEED]]    it fails where anything differs, or where a call, a refusal, a value of a model or
 *                                   fractions that a tolerance judges otherwise than 1e-6 does never came up */
#include "kiltgrit.h"

#include <math.h>
#include <stdio.h>
#include <stdlib.h>
#include <string.h>

enum { VALUES = 5400, CELLS = 1500, MARKS = 1100, LEAST_VALUES = 5328, LEAST_CELLS = 1024, LEAST_MARKS = 1024 };
enum { OPEN, LOAD, SET, FRACTIONS, QUERY, PLAIN, CHECK, KINDS };
static const char *const names[KINDS] = {"open", "load", "set", "fractions", "query", "plain", "check"};

/* ---- chance */
static uint64_t state;
static uint64_t bits(void) {
    state ^= state << 13;
    state ^= state >> 7;
    state ^= state << 17;
    return state;
}
static size_t below(size_t n) { return (size_t)(bits() >> 11) % n; }
static int one_in(size_t n) { return below(n) == 0; }
static double of_bits(uint64_t b) {
    double v;
    memcpy(&v, &b, sizeof v);
    return v;
}
/* Any bits, a NaN of any payload, an infinity, a zero of either sign, a subnormal, or a plain number. */
static double any_float(void) {
    switch (below(8)) {
    case 0: return of_bits(bits());
    case 1: return of_bits(bits() | 0x7FF0000000000000u);
    case 2: return of_bits((bits() & 0x8000000000000000u) | 0x7FF0000000000000u);
    case 3: return of_bits(bits() & 0x8000000000000000u);
    case 4: return of_bits(bits() & 0x800FFFFFFFFFFFFFu);
    default: return ((double)below(2001) - 1000.0) / 16.0;
    }
}
/* A number of which no model makes a NaN; a T in kelvin, or any. */
static double calm(void) { return (double)(1 + below(1000)) / 1024.0; }
static double any_t(void) { return one_in(3) ? any_float() : 250.0 + 200.0 * calm(); }
/* A tolerance that a call sets, one at the edge of these, or any. */
static double any_tolerance(void) {
    static const double edges[] = {0.0, -0.0, -5e-324, 1e-6, 1e-3};
    switch (below(6)) {
    case 0: return any_float();
    case 1: return edges[below(5)];
    case 2: return nextafter(1e-3, one_in(2) ? 0.0 : 1.0);
    default: return 1e-3 * calm();
    }
}
/* Any 64 bits; a power of 2 or near 2^64, whose squares wrap round. */
static size_t huge(void) {
    return one_in(2) ? (size_t)bits() : one_in(2) ? (size_t)1 << below(64) : SIZE_MAX - below(9);
}
static int same(const void *a, const void *b, size_t n) { return memcmp(a, b, n) == 0; }
/* What was stored of a number that was passed: its bits, or a NaN for a NaN. */
static int holds(double v, double passed) { return passed != passed ? v != v : same(&v, &passed, sizeof v); }

/* ---- what is lent, and what it was before a call */
static double values[VALUES], cells[CELLS], old_values[VALUES], old_cells[CELLS];
static uint8_t marks[MARKS], old_marks[MARKS];
static size_t lv, lc, lm;
static kiltgrit_head head, old_head;

/* ---- what a load or a plain call brings, and what it was before the call. Lengths are those of the arrays or less. */
typedef struct brought {
    uint32_t model, form;
    size_t n, ng, lens_len, groups_len, given_len, x_len;
    uint8_t lens[16], groups[240];
    double given[VALUES], tolerance, x[14];
} brought;
static brought b, old_b;

static size_t at_most(size_t m, size_t k) { return k < m ? k : m; }
/* The model's size, by a sum that may wrap round. */
static size_t size_of(uint32_t model, size_t n, size_t ng, size_t places) {
    return model == 1 ? n * n + n : model == 2 ? n * n + 2 * n : model == 3 ? 6 * n * n : 2 * ng + 5 * ng * ng + places;
}
/* Fractions, one in four of them off by the tolerance or by what some accept. */
static void any_x(size_t n, double tolerance) {
    const double off = one_in(2) ? tolerance : 1.5e-3 * calm();
    double sum = 0.0;
    b.x_len = one_in(30) ? 0 : one_in(12) ? below(15) : at_most(14, n);
    for (size_t k = 0; k < 14; k++) b.x[k] = one_in(60) ? any_float() : (double)(1 + below(9));
    for (size_t k = 0; k < b.x_len; k++) sum += b.x[k];
    if (one_in(12)) return;
    for (size_t k = 0; k < b.x_len; k++) b.x[k] /= sum;
    if (one_in(4)) b.x[0] += one_in(2) ? off : -off;
}
/* The length that fits, or one off. */
static size_t about(size_t len, size_t most) {
    return at_most(most, one_in(40) ? len + 1 : one_in(40) ? len - 1 : len);
}
/* Mostly what passes; any part of it may be wrong by itself. */
static void any_brought(void) {
    const int wild = one_in(3);
    size_t places = 0;
    b.model = one_in(20) ? (uint32_t)bits() : 1 + (uint32_t)below(4), b.form = one_in(30) ? (uint32_t)bits() : 0;
    b.n = one_in(20) ? below(15) : one_in(30) ? huge() : 1 + below(12);
    b.ng = one_in(20) ? below(35) : one_in(30) ? huge() : 1 + below(32);
    for (size_t i = 0; i < sizeof b.lens; i++) b.lens[i] = (uint8_t)below(one_in(60) ? 15 : one_in(600) ? 256 : 13);
    for (size_t i = 0; i < at_most(sizeof b.lens, b.n); i++) places += b.lens[i];
    for (size_t p = 0; p < sizeof b.groups; p++)
        b.groups[p] = (uint8_t)below(one_in(200) || b.ng == 0 ? 256 : at_most(256, b.ng));
    b.lens_len = about(at_most(sizeof b.lens, b.n), sizeof b.lens);
    b.groups_len = about(at_most(sizeof b.groups, places), sizeof b.groups);
    b.given_len = about(size_of(b.model, b.n, b.ng, one_in(2) ? places : b.groups_len), VALUES);
    for (size_t k = 0; k < b.given_len; k++) b.given[k] = wild ? any_float() : calm();
    if (b.model == 4 && !one_in(12)) /* counts, of which most pass */
        for (size_t k = 1; k <= at_most(b.given_len, places); k++)
            b.given[b.given_len - k] = one_in(400) ? -1.0 : (double)below(9);
    b.tolerance = any_tolerance();
    any_x(b.n, b.tolerance);
}

static void any_memory(void) {
    const int wild = one_in(2);
    for (size_t k = 0; k < VALUES; k++) values[k] = wild ? any_float() : calm();
    for (size_t k = 0; k < CELLS; k++) cells[k] = any_float();
    for (size_t k = 0; k < MARKS; k++) marks[k] = one_in(2) ? 1 : (uint8_t)bits();
}
static size_t lent(size_t least, size_t most) { return one_in(40) ? below(least) : least + below(most - least + 1); }

/* A head of any bits, or one in range, perhaps with a field of any bits. */
static void any_head(void) {
    uint8_t *const raw = (uint8_t *)&head;
    for (size_t k = 0; k < sizeof head; k++) raw[k] = (uint8_t)bits();
    if (one_in(8)) return;
    head.model = (uint8_t)below(5);
    head.n = 1 + below(12);
    head.ng = 1 + below(32);
    for (size_t i = 0; i < 12; i++) head.lens[i] = (uint8_t)below(13);
    for (size_t p = 0; p < 144; p++) head.groups[p] = (uint8_t)below(head.ng);
    head.t = any_t();
    const int wild = one_in(2);
    for (size_t i = 0; i < 12; i++) head.x[i] = wild ? any_float() : 1.0 / (double)head.n;
    head.has_t = one_in(8) ? (uint8_t)bits() : (uint8_t)!one_in(4);
    head.has_x = one_in(8) ? (uint8_t)bits() : (uint8_t)!one_in(4);
    head.tolerance = any_tolerance();
    switch (below(24)) {
    case 0: head.model = (uint8_t)bits(); break;
    case 1: head.n = one_in(2) ? 13 : (size_t)bits(); break;
    case 2: head.ng = one_in(2) ? 33 : (size_t)bits(); break;
    case 3: head.lens[below(12)] = (uint8_t)bits(); break;
    case 4: head.groups[below(144)] = (uint8_t)bits(); break;
    default: break;
    }
}

/* ---- the documents' refusals */
static int is_short(void) { return lv < LEAST_VALUES || lc < LEAST_CELLS || lm < LEAST_MARKS; }
static unsigned head_fault(void) {
    size_t places = 0;
    if (is_short()) return 1;
    if (head.model == 0) return 8;
    if (head.model > 4 || head.n < 1 || head.n > 12) return 1;
    if (head.model < 4) return 0;
    if (head.ng < 1 || head.ng > 32) return 1;
    for (size_t i = 0; i < head.n; i++) {
        if (head.lens[i] > 12) return 1;
        places += head.lens[i];
    }
    for (size_t p = 0; p < places; p++)
        if (head.groups[p] >= head.ng) return 1;
    return 0;
}
static unsigned tolerance_fault(double tolerance) { return tolerance >= 0.0 && tolerance <= 1e-3 ? 0 : 14; }
/* Whether the head's model has the setting, and the places of values from `at` on that it writes. */
static unsigned setting_fault(const kiltgrit_setting *s, size_t *at, size_t *count) {
    const unsigned fault = head_fault();
    const size_t n = head.n, ng = head.ng, i = s->i, j = s->j;
    const int unifac = head.model == 4, nrtl = head.model == 3;
    *at = *count = 0;
    if (fault) return fault;
    switch (s->kind) {
    case 5: return 0;
    case 14: return tolerance_fault(s->v[0]);
    case 7:
        if (unifac || i >= n || j >= n) return 10;
        *at = (nrtl ? 5 * n * n : 0) + i * n + j, *count = 1;
        return 0;
    case 8:
        if (!(unifac || nrtl) || i >= (unifac ? ng : n) || j >= (unifac ? ng : n)) return 10;
        *at = unifac ? 2 * ng + 5 * (i * ng + j) : 5 * (i * n + j), *count = 5;
        return 0;
    case 9:
        if (nrtl || i >= (unifac ? ng : n) || j >= (head.model == 1 ? 1u : 2u)) return 10;
        *at = unifac ? j * ng + i : n * n + j * n + i, *count = 1;
        return 0;
    case 10:
        if (!unifac || i >= n || j >= head.lens[i]) return 10;
        if (s->v[0] < 0.0) return 4;
        *at = 2 * ng + 5 * ng * ng + j, *count = 1;
        for (size_t k = 0; k < i; k++) *at += head.lens[k];
        return 0;
    default: return 10;
    }
}
/* Of what a load or a plain call brings: 2 anywhere, then the first place at fault. */
static unsigned brought_fault(const brought *d) {
    const size_t tables = 2 * d->ng + 5 * d->ng * d->ng;
    size_t places = 0;
    if (d->model < 1 || d->model > 4 || d->form != 0 || d->n < 1 || d->n > 12) return 2;
    if (d->model < 4) return d->given_len != size_of(d->model, d->n, 0, 0) ? 2 : 0;
    if (d->ng < 1 || d->ng > 32 || d->lens_len != d->n) return 2;
    for (size_t i = 0; i < d->n; i++) {
        if (d->lens[i] > 12) return 2;
        places += d->lens[i];
    }
    if (d->groups_len != places || d->given_len != tables + places) return 2;
    for (size_t p = 0; p < places; p++) {
        if (d->groups[p] >= d->ng) return 3;
        if (d->given[tables + p] < 0.0) return 4;
    }
    return 0;
}
static unsigned composition_fault(const brought *d, double tolerance) {
    double sum = 0.0;
    if (d->x_len == 0) return 5;
    for (size_t k = 0; k < d->x_len; k++) sum += d->x[k];
    return fabs(sum - 1.0) > tolerance ? 6 : 0;
}
static unsigned x_fault(const brought *d, size_t n, double tolerance) {
    const unsigned fault = composition_fault(d, tolerance);
    return fault ? fault : d->x_len != n ? 7 : 0;
}
static unsigned asked_fault(uint32_t asked, size_t i, size_t n) { return asked == 2 || (asked < 2 && i < n) ? 0 : 7; }
static unsigned plain_fault(const brought *d, uint32_t asked, size_t i) {
    const unsigned fault = brought_fault(d), range = tolerance_fault(d->tolerance);
    const unsigned of_x = x_fault(d, d->n, d->tolerance);
    return fault ? fault : range ? range : of_x ? of_x : asked_fault(asked, i, d->n);
}
static unsigned fractions_fault(void) {
    const unsigned fault = head_fault();
    return fault ? fault : x_fault(&b, head.n, head.tolerance);
}
static unsigned check_fault(void) {
    const unsigned range = tolerance_fault(b.tolerance);
    return range ? range : composition_fault(&b, b.tolerance);
}
static unsigned query_fault(uint32_t asked, size_t i) {
    const unsigned fault = head_fault();
    if (fault) return fault;
    if (head.has_t != 1 || head.has_x != 1) return 9;
    return asked_fault(asked, i, head.n);
}

/* ---- what is held against what */
static unsigned long differ, made, tally[KINDS][15], compared[5], compared_off;
static void must(int held, const char *call, const char *what) {
    if (held) return;
    if (differ < 20) printf("%s: %s (call %lu)\n", call, what, made);
    differ++;
}
static size_t width(void) { return head.model == 4 ? head.ng : head.n; }
static int is_cell(size_t c) {
    const size_t w = width();
    return c < w * w && (head.model == 4 || c / w != c % w);
}
/* td at T, and the exponential that a cell of the head's model keeps. */
static double td(const double *p) {
    const double t = head.t;
    return p[0] + p[1] / t + p[2] * kiltgrit_log(t) + p[3] * t + p[4] / (t * t);
}
static double exponential(size_t c) {
    const size_t w = width();
    if (head.model == 4) return kiltgrit_exp(-td(values + 2 * w + 5 * c) / head.t);
    if (head.model == 3) return kiltgrit_exp(-values[5 * w * w + c] * td(values + 5 * c));
    return kiltgrit_exp(-(values[c] - values[c / w * w + c / w]) / head.t);
}
static void kept(const char *call, int v, int c, int m) {
    if (v) must(same(values, old_values, sizeof values), call, "values");
    if (c) must(same(cells, old_cells, sizeof cells), call, "cells");
    if (m) must(same(marks, old_marks, sizeof marks), call, "marks");
}
static void brought_kept(int call) { must(same(&b, &old_b, sizeof b), names[call], "an argument"); }
/* A refusal: nothing written, the head as it came, 0 in the other fields. */
static int refused(int call, unsigned expected, const kiltgrit_reply *r) {
    const double none = 0.0;
    must(r->refused == expected, names[call], "another number");
    must(r->unused == 0 && r->renewed == 0 && r->cells_worked == 0 && same(&r->value, &none, sizeof none), names[call],
         "a field isn't 0");
    must(same(&head, &old_head, sizeof head), names[call], "the head that was passed");
    if (r->refused < 15) tally[call][r->refused]++;
    if (r->refused == 0) return 0;
    kept(names[call], 1, 1, 1);
    must(same(&r->head, &head, sizeof head), names[call], "the head of a refusal");
    return 1;
}
/* The head that came, with 0 in what is kept for later and flags of 0 or 1. */
static kiltgrit_head plain_head(void) {
    kiltgrit_head h = head;
    h.form = 0, h.changes = 0;
    memset(h.unused, 0, sizeof h.unused), memset(h.also_unused, 0, sizeof h.also_unused);
    h.has_t = head.has_t == 1, h.has_x = head.has_x == 1;
    return h;
}
static void take(int call, const kiltgrit_head *h, const kiltgrit_head *want) {
    must(same(h, want, sizeof head), names[call], "the head");
    head = *h;
}
#define LENT values, lv, cells, lc, marks, lm, head

static void open_it(void) {
    static const kiltgrit_head none = {0};
    const kiltgrit_reply r = kiltgrit_mixture_open(LENT);
    if (refused(OPEN, is_short() ? 1 : 0, &r)) return;
    kept("open", 1, 1, 1);
    take(OPEN, &r.head, &none);
}

static void load_it(void) {
    kiltgrit_head want = {0};
    any_brought();
    old_b = b;
    const kiltgrit_reply r = kiltgrit_mixture_load(LENT, b.model, b.form, b.n, b.ng, b.lens, b.lens_len, b.groups,
                                                   b.groups_len, b.given, b.given_len);
    brought_kept(LOAD);
    if (refused(LOAD, is_short() ? 1 : brought_fault(&b), &r)) return;
    want.model = (uint8_t)b.model, want.n = b.n, want.tolerance = 1e-6;
    if (b.model == 4) {
        want.ng = b.ng;
        memcpy(want.lens, b.lens, b.lens_len);
        memcpy(want.groups, b.groups, b.groups_len);
    }
    take(LOAD, &r.head, &want);
    kept("load", 0, 1, 0);
    for (size_t k = 0; k < b.given_len; k++) must(holds(values[k], b.given[k]), "load", "a value");
    must(same(values + b.given_len, old_values + b.given_len, (VALUES - b.given_len) * sizeof values[0]), "load",
         "values past its own");
    for (size_t c = 0; c < MARKS; c++) must(marks[c] == (is_cell(c) ? 0 : old_marks[c]), "load", "a mark");
}

static void set_it(void) {
    static const uint32_t kinds[] = {5, 5, 7, 8, 9, 10, 14};
    const size_t w = width();
    const int wild = one_in(2);
    kiltgrit_setting s;
    size_t at, count;
    s.kind = one_in(20) ? (uint32_t)bits() : kinds[below(7)];
    s.unused = (uint32_t)bits();
    s.i = one_in(20) ? (size_t)bits() : below(w > 0 && w < 33 ? w : 12);
    s.j = one_in(20) ? (size_t)bits() : s.kind == 9 ? below(2) : below(w > 0 && w < 33 ? w : 12);
    for (size_t k = 0; k < 5; k++)
        s.v[k] = wild ? any_float() : s.kind == 5 ? any_t() : s.kind == 14 ? any_tolerance() : calm();
    const kiltgrit_setting passed = s;
    const unsigned expected = setting_fault(&s, &at, &count);
    const kiltgrit_reply r = kiltgrit_mixture_set(LENT, s);
    must(same(&s, &passed, sizeof s), "set", "the setting");
    if (refused(SET, expected, &r)) return;
    kept("set", 0, 1, 0);
    for (size_t k = 0; k < VALUES; k++)
        must(k >= at && k < at + count ? holds(values[k], s.v[k - at])
                                       : same(&values[k], &old_values[k], sizeof values[k]),
             "set", "a value");
    for (size_t c = 0; c < MARKS; c++) {
        const size_t i = w ? c / w : 0, j = w ? c % w : 0;
        const int own = i == s.i && j == s.j, row = head.model < 3 && s.i == s.j && i == s.i;
        const int stale = s.kind == 5 || (s.kind == 7 && (own || row)) || (s.kind == 8 && own);
        must(marks[c] == (is_cell(c) && stale ? 0 : old_marks[c]), "set", "a mark");
    }
    kiltgrit_head want = plain_head();
    if (s.kind == 5) {
        want.has_t = 1;
        want.t = holds(r.head.t, s.v[0]) ? r.head.t : s.v[0];
    }
    if (s.kind == 14) want.tolerance = s.v[0];
    take(SET, &r.head, &want);
}

/* How many fractions were accepted that are off by more than 1e-6, and refused that aren't. */
static unsigned long wider, narrower;
static void fractions_it(void) {
    any_x(head.n > 0 && head.n < 13 ? head.n : 3, head.tolerance);
    old_b = b;
    const kiltgrit_reply r = kiltgrit_mixture_fractions(LENT, b.x, b.x_len);
    brought_kept(FRACTIONS);
    wider += r.refused == 0 && composition_fault(&b, 1e-6) == 6;
    narrower += r.refused == 6 && composition_fault(&b, 1e-6) == 0;
    if (refused(FRACTIONS, fractions_fault(), &r)) return;
    kept("fractions", 1, 1, 1);
    kiltgrit_head want = plain_head();
    want.has_x = 1;
    for (size_t k = 0; k < 12; k++) {
        const double x = k < b.x_len ? b.x[k] : 0.0;
        want.x[k] = holds(r.head.x[k], x) ? r.head.x[k] : x;
    }
    take(FRACTIONS, &r.head, &want);
}

static kiltgrit_value plain(const brought *d, double t, uint32_t asked, size_t i) {
    return kiltgrit_plain(d->model, d->form, d->n, d->ng, d->lens, d->lens_len, d->groups, d->groups_len, d->given,
                          d->given_len, t, d->tolerance, d->x, d->x_len, asked, i);
}
/* The plain call over what the mixture holds gives the same value. On memory or a head that no calls made it may find a
 * count below 0 or fractions of another sum, which a query doesn't look for: it has the tolerance that refuses fewest. */
static void same_value(uint32_t asked, size_t i, double value) {
    static brought p;
    p.model = head.model, p.n = head.n, p.ng = head.ng, p.lens_len = head.n, p.x_len = head.n, p.groups_len = 0;
    for (size_t k = 0; k < head.n && head.model == 4; k++) p.groups_len += head.lens[k];
    p.given_len = size_of(p.model, p.n, p.ng, p.groups_len);
    memcpy(p.lens, head.lens, sizeof head.lens), memcpy(p.groups, head.groups, sizeof head.groups);
    memcpy(p.given, values, sizeof values), memcpy(p.x, head.x, sizeof head.x), p.tolerance = 1e-3;
    const kiltgrit_value v = plain(&p, head.t, asked, i);
    must(v.refused == plain_fault(&p, asked, i), "query", "the plain call's number");
    if (v.refused != 0) return;
    must(holds(value, v.value), "query", "the value");
    if (isnan(value)) return;
    compared[head.model]++, compared_off += composition_fault(&p, 1e-6) == 6;
}

static void query_it(void) {
    const uint32_t asked = one_in(20) ? (uint32_t)bits() : (uint32_t)below(3);
    const size_t i = one_in(12) ? (size_t)bits() : below(head.n > 0 && head.n < 13 ? head.n : 12);
    const unsigned expected = query_fault(asked, i);
    const double none = 0.0;
    size_t stale = 0;
    int all_right = 1;
    const kiltgrit_answer a = kiltgrit_mixture_query(LENT, asked, i);
    must(a.refused == expected, "query", "another number");
    must(a.unused == 0 && a.renewed == 0, "query", "a field isn't 0");
    must(same(&head, &old_head, sizeof head), "query", "the head that was passed");
    if (a.refused < 15) tally[QUERY][a.refused]++;
    if (a.refused != 0) {
        kept("query", 1, 1, 1);
        must(same(&a.value, &none, sizeof none) && a.cells_worked == 0, "query", "a refusal with a value");
        return;
    }
    kept("query", 1, 0, 0);
    for (size_t c = 0; c < CELLS; c++) {
        const int work = c < MARKS && is_cell(c) && old_marks[c] != 1;
        const int right = !is_cell(c) || holds(cells[c], exponential(c));
        stale += (size_t)work;
        all_right &= right;
        must(work ? right : same(&cells[c], &old_cells[c], sizeof cells[c]), "query", "a cell");
        if (c < MARKS) must(marks[c] == (work ? 1 : old_marks[c]), "query", "a mark");
    }
    must(a.cells_worked == stale, "query", "the count");
    if (all_right) same_value(asked, i, a.value);
}

static void plain_it(void) {
    const uint32_t asked = one_in(20) ? (uint32_t)bits() : (uint32_t)below(3);
    const double t = any_t(), none = 0.0;
    any_brought();
    old_b = b;
    const size_t i = one_in(12) ? (size_t)bits() : below(b.n > 0 && b.n < 13 ? b.n : 12);
    const kiltgrit_value v = plain(&b, t, asked, i);
    brought_kept(PLAIN);
    kept("plain", 1, 1, 1);
    must(v.refused == plain_fault(&b, asked, i), "plain", "another number");
    must(v.unused == 0 && (v.refused == 0 || same(&v.value, &none, sizeof none)), "plain", "a field isn't 0");
    if (v.refused < 15) tally[PLAIN][v.refused]++;
}

static void check_it(void) {
    any_brought();
    old_b = b;
    const uint32_t got = kiltgrit_check_composition(b.tolerance, b.x, b.x_len);
    brought_kept(CHECK);
    kept("check", 1, 1, 1);
    must(got == check_fault(), "check", "another number");
    if (got < 15) tally[CHECK][got]++;
}

int main(int argc, char **argv) {
    static void (*const calls[KINDS])(void) = {open_it, load_it, set_it, fractions_it, query_it, plain_it, check_it};
    /* A is 10, E is 14 */
    static const char *const due[KINDS] = {"01", "01234", "0148AE", "015678", "01789", "0234567E", "056E"};
    const unsigned long count = argc > 1 ? strtoul(argv[1], NULL, 10) : 120000;
    unsigned long missing = 0;
    state = argc > 2 ? strtoul(argv[2], NULL, 10) * 2654435761u + 1 : 88172645463325252u;
    any_memory();
    any_head();
    for (made = 1; made <= count; made++) {
        if (one_in(50)) any_memory();
        if (one_in(8)) any_head();
        lv = lent(LEAST_VALUES, VALUES), lc = lent(LEAST_CELLS, CELLS), lm = lent(LEAST_MARKS, MARKS);
        memcpy(old_values, values, sizeof values);
        memcpy(old_cells, cells, sizeof cells);
        memcpy(old_marks, marks, sizeof marks);
        old_head = head;
        calls[one_in(40) ? OPEN : one_in(8) ? LOAD : one_in(8) ? PLAIN : one_in(16) ? CHECK : 2 + below(3)]();
    }
    for (size_t c = 0; c < KINDS; c++) {
        printf("%-9s accepted %6lu, refused", names[c], tally[c][0]);
        for (int k = 1; k < 15; k++)
            if (tally[c][k]) printf(" %d: %lu", k, tally[c][k]);
        printf("\n");
        for (const char *k = due[c]; *k; k++)
            if (tally[c][*k < 'A' ? *k - '0' : *k - 'A' + 10] == 0)
                printf("%s: %c never came up\n", names[c], *k), missing++;
    }
    printf("values as the plain call's, NaNs apart:");
    for (int k = 1; k < 5; k++) printf(" model %d: %lu", k, compared[k]), missing += compared[k] == 0;
    printf("; %lu of fractions off by more than 1e-6\n", compared_off);
    printf("fractions off by more than 1e-6 accepted %lu, by less refused %lu\n", wider, narrower);
    missing += compared_off == 0 || wider == 0 || narrower == 0;
    printf("through the boundary: %lu calls, %lu differ\n", count, differ);
    return differ != 0 || missing != 0;
}
