/* Activity coefficients in C, to read: three solvents by UNIQUAC, one of their parameters changed, a refusal in words, and
 * two solvents by UNIFAC, weighed by hand; ln gamma with the digits of a panel. The numbers are those of
 * examples/acetone-toluene-mek.table and examples/ethanol-hexane.table.
 *
 *     (cd crates/kiltgrit && rt lib); mkdir -p target
 *     gcc -std=c11 -O2 -Iinclude examples/gamma.c crates/kiltgrit/out/libkiltgrit.a -o target/gamma && target/gamma
 */
#include "kiltgrit.h"

#include <inttypes.h>
#include <stdio.h>
#include <stdlib.h>

/* Ends the program where a call is refused. */
static void must(kiltgrit_refusal r) {
    if (r == KILTGRIT_OK) return;
    fprintf(stderr, "refused: %s\n", kiltgrit_words(r));
    exit(1);
}

/* ln gamma as a panel shows it: the whole number of millionths with its point. */
static void panel(double ln_gamma) {
    const kiltgrit_shown s = kiltgrit_millionths(ln_gamma);
    const int64_t size = s.millionths < 0 ? -s.millionths : s.millionths;
    if (s.refused)
        printf("not shown: %s\n", kiltgrit_words((kiltgrit_refusal)s.refused));
    else
        printf("%s%" PRId64 ".%06" PRId64 "\n", s.millionths < 0 ? "-" : "", size / 1000000, size % 1000000);
}

/* gamma and ln gamma of each component and g^E/(RT), and how many exponentials they took. */
static void show(kiltgrit_mixture *m, const char *const *names, size_t n) {
    kiltgrit_counts counts = {0, 0};
    size_t worked = 0;
    double value = 0.0, ln_gamma = 0.0;
    for (size_t i = 0; i < n; i++) {
        must(kiltgrit_query(m, KILTGRIT_GAMMA, i, &value, &counts));
        worked += counts.cells_worked;
        must(kiltgrit_query(m, KILTGRIT_LN_GAMMA, i, &ln_gamma, &counts));
        worked += counts.cells_worked;
        printf("  gamma of %-10s %.6f   ln gamma  ", names[i], value);
        panel(ln_gamma);
    }
    must(kiltgrit_query(m, KILTGRIT_EXCESS_GIBBS, 0, &value, &counts));
    worked += counts.cells_worked;
    printf("  gE/(RT)             %.6f   (%zu exponentials)\n", value, worked);
}

static void uniquac(kiltgrit_mixture *m) {
    static const char *const names[] = {"acetone", "toluene", "MEK"};
    static const double given[KILTGRIT_UNIQUAC_VALUES(3)] = {
        0.0, 135.8, 41.5, /* a_11, a_12, a_13 in kelvin */
        -77.1, 0.0, -37.7,
        -35.3, 49.2, 0.0,
        2.57, 3.92, 3.25, /* r */
        2.34, 2.97, 2.88, /* q */
    };
    static const double x[] = {0.3, 0.5, 0.2};
    must(kiltgrit_load(m, KILTGRIT_UNIQUAC, 3, given, KILTGRIT_UNIQUAC_VALUES(3)));
    must(kiltgrit_set(m, kiltgrit_temperature(345.0)));
    must(kiltgrit_fractions(m, x, 3));
    puts("UNIQUAC at 345 K");
    show(m, names, 3);
    puts("a_22 set to 5 K: only the two exponentials that it is an input of are worked out again");
    must(kiltgrit_set(m, kiltgrit_entry(1, 1, 5.0)));
    show(m, names, 3);
    const kiltgrit_refusal r = kiltgrit_set(m, kiltgrit_td(0, 1, 986.5, 0.0, 0.0, 0.0, 0.0));
    printf("a td entry is refused: %s; the mixture is as it was\n", kiltgrit_words(r));
    static const double dry[] = {0.6, 0.0, 0.4};
    double ln_gamma = 0.0;
    must(kiltgrit_fractions(m, dry, 3));
    must(kiltgrit_query(m, KILTGRIT_LN_GAMMA, 1, &ln_gamma, NULL));
    printf("toluene boiled out: its ln gamma is ");
    panel(ln_gamma);
}

static void unifac(kiltgrit_mixture *m) {
    static const char *const names[] = {"ethanol", "n-hexane"};
    static const uint8_t lens[] = {3, 2};            /* how many groups each has */
    static const uint8_t groups[] = {0, 1, 2, 0, 1}; /* CH3 CH2 OH, CH3 CH2 */
    static const double given[KILTGRIT_UNIFAC_VALUES(3, 5)] = {
        0.9011, 0.6744, 1.0,                                          /* R of CH3, CH2, OH */
        0.848, 0.540, 1.2,                                            /* Q */
        0, 0, 0, 0, 0,       0, 0, 0, 0, 0,       986.5, 0, 0, 0, 0,  /* a of CH3 with each, in kelvin; b to e are 0 */
        0, 0, 0, 0, 0,       0, 0, 0, 0, 0,       986.5, 0, 0, 0, 0,  /* of CH2 */
        156.4, 0, 0, 0, 0,   156.4, 0, 0, 0, 0,   0, 0, 0, 0, 0,      /* of OH */
        1, 1, 1,             2, 4,                                    /* how often each listed group is there */
    };
    static const double x[] = {0.33, 0.67};
    must(kiltgrit_load_unifac(m, 2, 3, lens, groups, 5, given, KILTGRIT_UNIFAC_VALUES(3, 5)));
    must(kiltgrit_set(m, kiltgrit_temperature(331.8)));
    must(kiltgrit_fractions(m, x, 2));
    puts("UNIFAC at 331.8 K");
    show(m, names, 2);
    static const double by_hand[] = {0.33001, 0.67};
    printf("weighed by hand, off 1 by 1e-5: %s\n", kiltgrit_words(kiltgrit_fractions(m, by_hand, 2)));
    must(kiltgrit_set(m, kiltgrit_tolerance(1e-4)));
    must(kiltgrit_fractions(m, by_hand, 2));
    puts("with a tolerance of 1e-4 they are taken");
    show(m, names, 2);
}

int main(void) {
    kiltgrit_mixture still; /* any content will do */
    if (kiltgrit_version() != KILTGRIT_VERSION || !kiltgrit_floats_ok()) return 1;
    must(kiltgrit_open(&still));
    uniquac(&still);
    unifac(&still);
    return 0;
}
