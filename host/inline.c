/* The inline functions and macros of include/kiltgrit.h against what the header says of each. Every setting is made
 * with a changed number, which a copy of the given values gets too, at the place that the header's order says: then
 * every answer of the mixture is by bits that of a plain call over the copy, some answer is another than before, and as
 * many exponentials were worked out as the header says. Every refusal comes by its name, and leaves the mixture, the
 * value and the counts as they were.
 *
 * It is C11 and C++11. It fails where a check is wrong, or where it made another number of them than CHECKS. */
#include "kiltgrit.h"

#include <math.h>
#include <stdio.h>
#include <string.h>

enum { CHECKS = 14614, N = 4, NG = 5, LISTED = 10 };

static unsigned long checks, wrong;
static void must(int held, const char *what) {
    checks++;
    if (!held && wrong++ < 20) printf("wrong: %s (check %lu)\n", what, checks);
}
static int same(const void *a, const void *b, size_t n) { return memcmp(a, b, n) == 0; }

/* ---- the mixture, and what it holds */
static kiltgrit_mixture m, before;
static kiltgrit_model model;
static size_t len;
static double given[6000], kelvin, x[N], last[3][N], within = 1e-6; /* the tolerance under which x was accepted */
static const uint8_t lens[N] = {3, 1, 4, 2};
static uint8_t groups[LISTED] = {0, 3, 1, 2, 4, 0, 2, 3, 1, 4};

static kiltgrit_refusal load(size_t values) {
    return model == KILTGRIT_UNIFAC ? kiltgrit_load_unifac(&m, N, NG, lens, groups, LISTED, given, values)
                                    : kiltgrit_load(&m, model, N, given, values);
}
/* The plain call; the header's own has the usual tolerance alone. */
static kiltgrit_refusal plain_within(kiltgrit_asked asked, size_t i, double *value) {
    const kiltgrit_value v = kiltgrit_plain((uint32_t)model, 0, N, NG, lens, N, groups, LISTED, given, len, kelvin,
                                            within, x, N, (uint32_t)asked, i);
    if (v.refused == 0) *value = v.value;
    return (kiltgrit_refusal)v.refused;
}
static kiltgrit_refusal plain(kiltgrit_asked asked, size_t i, double *value) {
    if (within != 1e-6) return plain_within(asked, i, value);
    return model == KILTGRIT_UNIFAC
               ? kiltgrit_unifac_value_at(N, NG, lens, groups, LISTED, given, len, kelvin, x, asked, i, value)
               : kiltgrit_value_at(model, N, given, len, kelvin, x, asked, i, value);
}

/* Every answer is the plain call's. The first query works out `cells` exponentials and the others none. gamma is exp of
 * ln gamma and the excess energy their sum, so that no quantity stands for another. */
static void answers(const char *what, size_t cells, int another) {
    static const kiltgrit_asked all[] = {KILTGRIT_LN_GAMMA, KILTGRIT_GAMMA, KILTGRIT_EXCESS_GIBBS};
    double sum = 0.0;
    int changed = 0;
    for (size_t i = 0; i < N; i++) {
        for (size_t q = 0; q < 3; q++) {
            kiltgrit_counts counts = {77, 78};
            double value = 7.25, at_once = 7.5;
            must(kiltgrit_query(&m, all[q], i, &value, &counts) == KILTGRIT_OK, what);
            must(plain(all[q], i, &at_once) == KILTGRIT_OK && same(&value, &at_once, sizeof value), what);
            must(counts.cells_worked == cells && counts.renewed == 0, what);
            cells = 0;
            changed |= !same(&value, &last[q][i], sizeof value);
            last[q][i] = value;
        }
        sum += x[i] * last[0][i];
        must(last[1][i] == kiltgrit_exp(last[0][i]), "gamma is exp of ln gamma");
    }
    must(fabs(sum - last[2][0]) < 1e-12, "the excess energy is the sum of x ln gamma");
    must(changed == another, what);
}

/* The value at a place is set anew, by the setting that `made` is with it. */
static double anew(size_t at) { return given[at] *= 1.25; }
static void set(const char *what, kiltgrit_setting made, size_t cells, int another) {
    must(kiltgrit_set(&m, made) == KILTGRIT_OK, what);
    answers(what, cells, another);
}

/* ---- the settings; tables stand by rows from `first` on */
static void entries(size_t first, size_t diagonal) {
    for (size_t i = 0; i < N; i++)
        for (size_t j = 0; j < N; j++)
            set("entry", kiltgrit_entry(i, j, anew(first + i * N + j)), i == j ? diagonal : 1, i != j || diagonal != 0);
}
static void tds(size_t first, size_t w, int diagonal) {
    for (size_t i = 0; i < w; i++)
        for (size_t j = 0; j < w; j++)
            for (size_t k = 0; k < 5; k++) {
                const double *const p = given + first + 5 * (i * w + j);
                const int read = i != j || diagonal;
                (void)anew(first + 5 * (i * w + j) + k);
                set("td", kiltgrit_td(i, j, p[0], p[1], p[2], p[3], p[4]), (size_t)read, read);
            }
}
static void sizes(size_t first, size_t w, size_t of_each) {
    for (size_t which = 0; which < of_each; which++)
        for (size_t i = 0; i < w; i++)
            set("size", kiltgrit_size(i, which, anew(first + which * w + i)), 0, 1);
}
static void counts(size_t at) {
    for (size_t i = 0; i < N; i++)
        for (size_t place = 0; place < lens[i]; place++) set("count", kiltgrit_count(i, place, anew(at++)), 0, 1);
}

/* ---- numbers that are all different */
static void row(double *at, size_t many, double first, double step) {
    for (size_t k = 0; k < many; k++) at[k] = first + step * (double)k;
}
static void td_row(double *at, size_t many, double a, double b, double c, double d, double e) {
    const double terms[5] = {a, b, c, d, e};
    for (size_t k = 0; k < 5 * many; k++) at[k] = terms[k % 5] * (1.0 + 0.01 * (double)k);
}

/* Loads what `given` has, by the one length that fits; then T and fractions, each twice. */
static void loaded(kiltgrit_model which, size_t values, size_t expected, size_t cells) {
    model = which, len = values, kelvin = 341.5;
    row(x, N, 0.4, -0.1);
    must(values == expected, "how many values");
    must(load(len - 1) == KILTGRIT_BAD_SHAPE && load(len + 1) == KILTGRIT_BAD_SHAPE, "another length");
    must(load(len) == KILTGRIT_OK && kiltgrit_set(&m, kiltgrit_temperature(kelvin)) == KILTGRIT_OK, "load");
    must(kiltgrit_fractions(&m, x, N) == KILTGRIT_OK, "fractions");
    answers("load", cells, 1);
    answers("asked again", 0, 0);
    set("temperature", kiltgrit_temperature(kelvin = 352.25), cells, 1);
    row(x, N, 0.1, 0.1);
    must(kiltgrit_fractions(&m, x, N) == KILTGRIT_OK, "fractions");
    answers("fractions", 0, 1);
}
static void wilson(void) {
    row(given, N * N, 41.0, 13.0), row(given + N * N, N, 52.0, 7.0);
    loaded(KILTGRIT_WILSON, KILTGRIT_WILSON_VALUES(N), 20, 12);
    entries(0, N - 1), sizes(N * N, N, 1);
}
static void uniquac(void) {
    row(given, N * N, -83.0, 17.0), row(given + N * N, N, 2.1, 0.3), row(given + N * N + N, N, 1.9, 0.35);
    loaded(KILTGRIT_UNIQUAC, KILTGRIT_UNIQUAC_VALUES(N), 24, 12);
    entries(0, N - 1), sizes(N * N, N, 2);
}
static void nrtl(void) {
    td_row(given, N * N, 0.2, 31.0, 0.03, 1e-4, 9e3), row(given + 5 * N * N, N * N, 0.2, 0.01);
    loaded(KILTGRIT_NRTL, KILTGRIT_NRTL_VALUES(N), 96, 12);
    entries(5 * N * N, 0), tds(0, N, 0);
}
static void unifac(void) {
    row(given, NG, 0.6, 0.17), row(given + NG, NG, 0.5, 0.13), row(given + 2 * NG + 5 * NG * NG, LISTED, 1.0, 0.5);
    td_row(given + 2 * NG, NG * NG, 20.0, 3e3, 1.5, 0.03, 1e6);
    loaded(KILTGRIT_UNIFAC, KILTGRIT_UNIFAC_VALUES(NG, LISTED), 145, NG * NG);
    sizes(0, NG, 2), tds(2 * NG, NG, 1), counts(2 * NG + 5 * NG * NG);
}

/* ---- refusals, by name */
static void refused(kiltgrit_refusal got, kiltgrit_refusal expected) {
    must(got == expected, kiltgrit_words(expected));
    must(same(&m, &before, sizeof m), "a refused call changed the mixture");
}
static void no_value(kiltgrit_asked asked, size_t i, kiltgrit_refusal expected) {
    kiltgrit_counts counted = {77, 78};
    double value = 7.25;
    refused(kiltgrit_query(&m, asked, i, &value, &counted), expected);
    must(value == 7.25 && counted.cells_worked == 77 && counted.renewed == 78, "a refused query wrote");
    refused(kiltgrit_query(&m, asked, i, &value, NULL), expected);
}
static void no_plain(kiltgrit_asked asked, size_t i, kiltgrit_refusal expected) {
    double value = 7.25;
    must(plain(asked, i, &value) == expected && value == 7.25, kiltgrit_words(expected));
}
static void unopened(void) {
    memset(&m, 0xA5, sizeof m);
    must(kiltgrit_open(&m) == KILTGRIT_OK, "open");
    before = m;
    refused(kiltgrit_set(&m, kiltgrit_temperature(300.0)), KILTGRIT_NO_MODEL);
    refused(kiltgrit_set(&m, kiltgrit_tolerance(1e-4)), KILTGRIT_NO_MODEL);
    refused(kiltgrit_set(&m, kiltgrit_tolerance(NAN)), KILTGRIT_NO_MODEL);
    refused(kiltgrit_fractions(&m, x, N), KILTGRIT_NO_MODEL);
    no_value(KILTGRIT_EXCESS_GIBBS, 0, KILTGRIT_NO_MODEL);
}
/* Of a model just tried: `lacks` is a setting that it hasn't. */
static void refusals(kiltgrit_setting lacks) {
    const double off[N] = {0.25, 0.25, 0.25, 0.26}, three[N] = {0.5, 0.25, 0.25, 0.0};
    before = m;
    refused(kiltgrit_set(&m, lacks), KILTGRIT_NO_PARAMETER);
    refused(kiltgrit_fractions(&m, x, 0), KILTGRIT_NO_FRACTIONS);
    refused(kiltgrit_fractions(&m, off, N), KILTGRIT_BAD_SUM);
    refused(kiltgrit_fractions(&m, three, N - 1), KILTGRIT_NO_COMPONENT);
    no_value(KILTGRIT_LN_GAMMA, N, KILTGRIT_NO_COMPONENT), no_plain(KILTGRIT_LN_GAMMA, N, KILTGRIT_NO_COMPONENT);
    no_value((kiltgrit_asked)3, 0, KILTGRIT_NO_COMPONENT), no_plain((kiltgrit_asked)3, 0, KILTGRIT_NO_COMPONENT);
    refused(kiltgrit_load(&m, (kiltgrit_model)5, N, given, len), KILTGRIT_BAD_SHAPE);
    x[0] += 1.0, no_plain(KILTGRIT_EXCESS_GIBBS, 0, KILTGRIT_BAD_SUM), row(x, N, 0.1, 0.1);
    len++, no_plain(KILTGRIT_GAMMA, 0, KILTGRIT_BAD_SHAPE), len--;
}
/* A tolerance works out nothing again. Fractions that one accepted stay so under a narrower one, and their plain call
 * has the one that accepted them. A load brings the usual one back. */
static void tolerances(void) {
    const double bad[] = {NAN, -5e-324, -HUGE_VAL, HUGE_VAL, nextafter(1e-3, 1.0)}, good[] = {0.0, 1e-3, 1e-4};
    double off[N];
    memcpy(off, x, sizeof off), off[0] += 1e-5;
    before = m;
    for (size_t k = 0; k < 5; k++) refused(kiltgrit_set(&m, kiltgrit_tolerance(bad[k])), KILTGRIT_BAD_TOLERANCE);
    refused(kiltgrit_fractions(&m, off, N), KILTGRIT_BAD_SUM);
    for (size_t k = 0; k < 3; k++) {
        set("tolerance", kiltgrit_tolerance(good[k]), 0, 0);
        must(same(&m.head.tolerance, &good[k], sizeof good[k]), "the head's tolerance");
    }
    must(kiltgrit_fractions(&m, off, N) == KILTGRIT_OK, "fractions off by 1e-5");
    memcpy(x, off, sizeof off), no_plain(KILTGRIT_GAMMA, 0, KILTGRIT_BAD_SUM), within = 1e-4;
    answers("fractions off by 1e-5", 0, 1);
    set("a narrower tolerance", kiltgrit_tolerance(-0.0), 0, 0);
    before = m, refused(kiltgrit_fractions(&m, x, N), KILTGRIT_BAD_SUM);
    row(x, N, 0.1, 0.1), within = 1e-6;
    must(load(len) == KILTGRIT_OK && m.head.tolerance == KILTGRIT_USUAL_TOLERANCE, "the tolerance after a load");
    before = m, refused(kiltgrit_fractions(&m, off, N), KILTGRIT_BAD_SUM);
    must(kiltgrit_set(&m, kiltgrit_temperature(kelvin)) == KILTGRIT_OK, "temperature");
    must(kiltgrit_fractions(&m, x, N) == KILTGRIT_OK, "fractions");
    answers("load", model == KILTGRIT_UNIFAC ? NG * NG : N * (N - 1), 1);
}
/* The excess energy takes any i, counts may be NULL, a copy answers as its original, whatever became of that, and a
 * tolerance leaves what was answered. */
static void odds(void) {
    double value = 7.25, at_once = 7.5;
    must(kiltgrit_query(&m, KILTGRIT_EXCESS_GIBBS, (size_t)-1, &value, NULL) == KILTGRIT_OK, "any i");
    must(plain(KILTGRIT_EXCESS_GIBBS, 99, &at_once) == KILTGRIT_OK, "any i");
    must(value == last[2][0] && at_once == value, "any i");
    before = m;
    must(kiltgrit_set(&m, kiltgrit_temperature(400.0)) == KILTGRIT_OK, "temperature");
    m = before;
    answers("a copy", 0, 0);
    tolerances();
}
/* A load unsets both T and fractions. No call makes a head out of range: one is damaged here. */
static void unset(void) {
    must(load(len) == KILTGRIT_OK && kiltgrit_fractions(&m, x, N) == KILTGRIT_OK, "load");
    before = m, no_value(KILTGRIT_GAMMA, 0, KILTGRIT_NOT_SET);
    must(load(len) == KILTGRIT_OK && kiltgrit_set(&m, kiltgrit_temperature(300.0)) == KILTGRIT_OK, "load");
    before = m, no_value(KILTGRIT_EXCESS_GIBBS, 0, KILTGRIT_NOT_SET);
    m.head.n = 13;
    before = m, no_value(KILTGRIT_GAMMA, 0, KILTGRIT_BAD_MEMORY);
    refused(kiltgrit_set(&m, kiltgrit_temperature(300.0)), KILTGRIT_BAD_MEMORY);
    refused(kiltgrit_fractions(&m, x, N), KILTGRIT_BAD_MEMORY);
}
/* UNIFAC alone: a count below 0, by a setting, a load and a plain call; no such group, by the last two. */
static void unifac_refusals(void) {
    double *const count = given + len - 1, was = *count;
    before = m;
    refused(kiltgrit_set(&m, kiltgrit_count(N - 1, 1, -1.0)), KILTGRIT_NEGATIVE_COUNT);
    *count = -1.0;
    refused(load(len), KILTGRIT_NEGATIVE_COUNT), no_plain(KILTGRIT_GAMMA, 0, KILTGRIT_NEGATIVE_COUNT);
    *count = was;
    groups[LISTED - 1] = NG;
    refused(load(len), KILTGRIT_NO_GROUP), no_plain(KILTGRIT_GAMMA, 0, KILTGRIT_NO_GROUP);
    groups[LISTED - 1] = 4;
}

/* ---- the macros: what is lent, the largest mixture, and one more of each */
static int lent(const double *v, size_t vn, const double *c, size_t cn, const uint8_t *k, size_t kn) {
    return v == m.values && vn * sizeof *v == sizeof m.values && c == m.cells && cn * sizeof *c == sizeof m.cells &&
           k == m.marks && kn == sizeof m.marks;
}
static kiltgrit_refusal large(size_t n, size_t ng, uint8_t each) {
    static const uint8_t listed[13 * 13] = {0};
    uint8_t all[13];
    memset(all, each, sizeof all);
    row(given, sizeof given / sizeof given[0], 0.5, 0.001);
    return kiltgrit_load_unifac(&m, n, ng, all, listed, n * each, given, KILTGRIT_UNIFAC_VALUES(ng, n * each));
}
static void limits(void) {
    enum { MOST = KILTGRIT_MAX_COMPONENTS, GROUPS = KILTGRIT_MAX_GROUPS, LIST = KILTGRIT_MAX_LIST };
    must(lent(KILTGRIT_LENT_(&m)), "what is lent");
    must(2 * KILTGRIT_WILSON_VALUES(1 + 1) == 12 && 2 * KILTGRIT_UNIQUAC_VALUES(1 + 1) == 16, "brackets");
    must(2 * KILTGRIT_NRTL_VALUES(1 + 1) == 48 && 2 * KILTGRIT_UNIFAC_VALUES(1 + 1, 6 & 3) == 52, "brackets");
    must(KILTGRIT_UNIFAC_VALUES(GROUPS, MOST * LIST) == KILTGRIT_VALUES, "room for the largest");
    must(large(MOST, GROUPS, LIST) == KILTGRIT_OK, "the largest");
    must(large(MOST + 1, 1, 1) == KILTGRIT_BAD_SHAPE && large(0, 1, 1) == KILTGRIT_BAD_SHAPE, "components");
    must(large(1, GROUPS + 1, 1) == KILTGRIT_BAD_SHAPE && large(1, 0, 1) == KILTGRIT_BAD_SHAPE, "groups");
    must(large(1, 1, LIST + 1) == KILTGRIT_BAD_SHAPE && large(1, 1, 0) == KILTGRIT_OK, "a list");
    must(kiltgrit_load(&m, KILTGRIT_WILSON, MOST, given, KILTGRIT_WILSON_VALUES(MOST)) == KILTGRIT_OK, "components");
}
static void word(unsigned name, unsigned number, const char *said) {
    must(name == number && strcmp(kiltgrit_words((kiltgrit_refusal)name), said) == 0, said);
}
static void words(void) {
    word(KILTGRIT_OK, 0, "ok");
    word(KILTGRIT_BAD_MEMORY, 1, "memory or head out of range");
    word(KILTGRIT_BAD_SHAPE, 2, "model, size or length out of range");
    word(KILTGRIT_NO_GROUP, 3, "no such group");
    word(KILTGRIT_NEGATIVE_COUNT, 4, "negative count of a group");
    word(KILTGRIT_NO_FRACTIONS, 5, "no fractions");
    word(KILTGRIT_BAD_SUM, 6, "fractions do not add up to 1");
    word(KILTGRIT_NO_COMPONENT, 7, "no such component or quantity, or not as many fractions");
    word(KILTGRIT_NO_MODEL, 8, "no model loaded");
    word(KILTGRIT_NOT_SET, 9, "temperature or fractions not set");
    word(KILTGRIT_NO_PARAMETER, 10, "no such parameter in this model");
    word(KILTGRIT_NOT_SHOWN, 11, "not a number, infinite, or 2048 or more in size");
    word(KILTGRIT_BAD_FIELD, 12, "list: a field of another form, or not as many fields or rows");
    word(KILTGRIT_TOO_MANY_DIGITS, 13, "list: a field of more than 15 digits");
    word(KILTGRIT_BAD_TOLERANCE, 14, "tolerance not a number, below 0 or above 0.001");
    word(15, 15, "unknown"), word(99, 99, "unknown");
}

/* ---- the panel: a call without lent memory, which has no inline function over it */
static void shows(double v, int64_t millionths, kiltgrit_refusal refused) {
    const kiltgrit_shown s = kiltgrit_millionths(v);
    must(s.millionths == millionths && s.refused == (uint32_t)refused && s.unused == 0, "what a panel shows");
}
static void panel(void) {
    shows(1.0 / 128.0, 7812, KILTGRIT_OK), shows(-3.0 / 128.0, -23438, KILTGRIT_OK); /* ties */
    shows(0.0, 0, KILTGRIT_OK), shows(-0.0, 0, KILTGRIT_OK), shows(-4.9e-7, 0, KILTGRIT_OK);
    shows(0.144094, 144094, KILTGRIT_OK), shows(-0.144094, -144094, KILTGRIT_OK);
    shows(nextafter(2048.0, 0.0), 2048000000, KILTGRIT_OK), shows(nextafter(-2048.0, 0.0), -2048000000, KILTGRIT_OK);
    shows(2048.0, 0, KILTGRIT_NOT_SHOWN), shows(-2048.0, 0, KILTGRIT_NOT_SHOWN);
    shows(HUGE_VAL, 0, KILTGRIT_NOT_SHOWN), shows(-HUGE_VAL, 0, KILTGRIT_NOT_SHOWN), shows(NAN, 0, KILTGRIT_NOT_SHOWN);
}

/* ---- the check of fractions alone: nor has it one */
static void checked(double tolerance, const double *fractions, size_t n, kiltgrit_refusal refused) {
    must(kiltgrit_check_composition(tolerance, fractions, n) == (uint32_t)refused, "the check of fractions alone");
}
static void check(void) {
    const double edge = 1.0 / 1024.0, one[] = {0.25, 0.75}, off[] = {0.25, 0.75 + edge};
    checked(0.0, one, 2, KILTGRIT_OK), checked(-0.0, one, 2, KILTGRIT_OK), checked(1e-3, off, 2, KILTGRIT_OK);
    checked(edge, off, 2, KILTGRIT_OK), checked(nextafter(edge, 0.0), off, 2, KILTGRIT_BAD_SUM);
    checked(1e-6, off, 2, KILTGRIT_BAD_SUM), checked(1e-6, one, 0, KILTGRIT_NO_FRACTIONS);
    checked(NAN, one, 2, KILTGRIT_BAD_TOLERANCE), checked(-1e-9, one, 0, KILTGRIT_BAD_TOLERANCE);
    checked(nextafter(1e-3, 1.0), off, 1, KILTGRIT_BAD_TOLERANCE);
}

/* ---- a supplier's list: nor has it one. Whatever is refused leaves the entries */
static double read_in[5];
static uint32_t imported(const char *text, size_t n, size_t places) {
    return kiltgrit_import((const uint8_t *)text, strlen(text), n, read_in, places);
}
static void declines(const char *text, size_t n, size_t places, kiltgrit_refusal refused) {
    static const double old[5] = {7.0, -0.0, 8.0, 9.0, 10.0};
    memcpy(read_in, old, sizeof old);
    must(imported(text, n, places) == (uint32_t)refused && same(read_in, old, sizeof old), text);
}
static void lists(void) {
    static const double read[5] = {-0.0, -81.46, 293.43, 123456789012345.0, 10.0};
    declines("1\n", 0, 0, KILTGRIT_BAD_SHAPE), declines("1\n", 13, 5, KILTGRIT_BAD_SHAPE);
    declines("1,2\n3,4\n", 2, 3, KILTGRIT_BAD_SHAPE), declines("1,2\n3,4\n", 2, 5, KILTGRIT_BAD_SHAPE);
    declines("1,2\n3,4", 2, 4, KILTGRIT_BAD_FIELD), declines("1;2\n3;4\n", 2, 4, KILTGRIT_BAD_FIELD);
    declines("1,2\n3,1234567890123456\n", 2, 4, KILTGRIT_TOO_MANY_DIGITS);
    declines("1,2\r\n3,1234567890123456\n", 2, 4, KILTGRIT_BAD_FIELD);
    must(imported("-0,-81.46\n293.43,123456789012345\n", 2, 4) == KILTGRIT_OK, "a list");
    must(same(read_in, read, sizeof read), "a list's entries");
}

int main(void) {
    must(kiltgrit_floats_ok() == 1, "floats");
    words(), panel(), check(), lists(), limits(), unopened();
    wilson(), odds(), refusals(kiltgrit_size(0, 1, 1.0)), refusals(kiltgrit_td(0, 1, 1.0, 1.0, 1.0, 1.0, 1.0)), unset();
    uniquac(), odds(), refusals(kiltgrit_count(0, 0, 1.0)), refusals(kiltgrit_entry(0, N, 1.0)), unset();
    nrtl(), odds(), refusals(kiltgrit_size(0, 0, 1.0)), refusals(kiltgrit_td(N, 0, 1.0, 1.0, 1.0, 1.0, 1.0)), unset();
    unifac(), odds(), refusals(kiltgrit_entry(0, 1, 1.0)), refusals(kiltgrit_count(1, 1, 1.0));
    unifac_refusals(), unset();
    printf("inline: %lu checks, %lu wrong\n", checks, wrong);
    return wrong != 0 || checks != CHECKS;
}
