/* The kept mixture in a C program: examples/acetone-methanol.charge, answered in the words of the program charge.
 *
 *     (cd crates/kiltgrit && rt lib); mkdir -p target
 *     gcc -std=c11 -O2 -Iinclude examples/embed.c crates/kiltgrit/out/libkiltgrit.a -o target/embed_c && target/embed_c
 *
 * Its lines are those of `examples/run --strip examples/acetone-methanol.charge | crates/charge/out/charge`. It is C++ too. */
#include "kiltgrit.h"

#include <inttypes.h>
#include <stdio.h>
#include <string.h>

static kiltgrit_mixture still;

/* a supplier's list, in cal/mol; and energies by rows in kelvin, then the molar volumes */
static const char list[] = "0,-161.88\n583.11,0\n";
static double given[KILTGRIT_WILSON_VALUES(2)] = {0.0, 0.0, 0.0, 0.0, 74.05, 40.73};

static uint32_t bring_in(void) {
    const uint32_t refused = kiltgrit_import((const uint8_t *)list, sizeof list - 1, 2, given, 4);
    for (size_t k = 0; refused == 0 && k < 4; k++) given[k] /= 1.987204;
    return refused;
}

static void said(kiltgrit_refusal r) {
    if (r == KILTGRIT_OK)
        puts("ok");
    else
        printf("refused %d\n", (int)r);
}

/* A query of the mixture, and the plain call, which keeps nothing and gives the same bits. */
static void ask(kiltgrit_asked asked, size_t i, const double *x) {
    double value, plain;
    kiltgrit_counts counts;
    uint64_t bits;
    const kiltgrit_refusal r = kiltgrit_query(&still, asked, i, &value, &counts);
    if (r != KILTGRIT_OK) {
        said(r);
        return;
    }
    if (kiltgrit_value_at(KILTGRIT_WILSON, 2, given, KILTGRIT_WILSON_VALUES(2), 328.7, x, asked, i, &plain) != 0 ||
        memcmp(&plain, &value, sizeof plain) != 0)
        puts("the plain call differs");
    memcpy(&bits, &value, sizeof bits);
    if (value != value)
        printf("nan %zu\n", counts.cells_worked);
    else
        printf("%016" PRIx64 " %zu\n", bits, counts.cells_worked);
}

/* Fractions weighed by hand, off 1 by 1e-5. A tolerance of 0.01 is refused and changes nothing; one of 1e-4 takes them,
 * and the answer is that of the plain call with this tolerance. */
static int by_hand(void) {
    const double x[2] = {0.78001, 0.22}, within = 1e-4;
    const uint8_t none = 0;
    double value = 0.0;
    if (kiltgrit_set(&still, kiltgrit_tolerance(0.01)) != KILTGRIT_BAD_TOLERANCE) return 0;
    if (kiltgrit_fractions(&still, x, 2) != KILTGRIT_BAD_SUM) return 0;
    if (kiltgrit_set(&still, kiltgrit_tolerance(within)) != KILTGRIT_OK) return 0;
    if (kiltgrit_check_composition(within, x, 2) != KILTGRIT_OK) return 0;
    if (kiltgrit_fractions(&still, x, 2) != KILTGRIT_OK) return 0;
    if (kiltgrit_query(&still, KILTGRIT_LN_GAMMA, 0, &value, NULL) != KILTGRIT_OK) return 0;
    const kiltgrit_value plain = kiltgrit_plain(KILTGRIT_WILSON, 0, 2, 0, &none, 0, &none, 0, given,
                                                KILTGRIT_WILSON_VALUES(2), 328.7, within, x, 2, KILTGRIT_LN_GAMMA, 0);
    return plain.refused == KILTGRIT_OK && memcmp(&plain.value, &value, sizeof value) == 0;
}

int main(void) {
    const double x[3][2] = {{0.78, 0.22}, {0.01, 0.99}, {0.99, 0.01}};
    if (kiltgrit_version() != KILTGRIT_VERSION) {
        fputs("header and library are of two versions\n", stderr);
        return 1;
    }
    if (!kiltgrit_floats_ok()) {
        fputs("floats are not rounded to nearest, or subnormals not kept\n", stderr);
        return 1;
    }
    memset(&still, 0xA5, sizeof still); /* whatever it held */
    kiltgrit_refusal r = kiltgrit_open(&still);
    if (r == KILTGRIT_OK) r = (kiltgrit_refusal)bring_in();
    if (r != KILTGRIT_OK) {
        fprintf(stderr, "%s\n", kiltgrit_words(r));
        return 1;
    }
    said(kiltgrit_load(&still, KILTGRIT_WILSON, 2, given, KILTGRIT_WILSON_VALUES(2)));
    said(kiltgrit_set(&still, kiltgrit_temperature(328.7)));
    for (size_t k = 0; k < 3; k++) {
        said(kiltgrit_fractions(&still, x[k], 2));
        for (size_t i = 0; i < 2; i++) {
            ask(KILTGRIT_LN_GAMMA, i, x[k]);
            ask(KILTGRIT_GAMMA, i, x[k]);
        }
        ask(KILTGRIT_EXCESS_GIBBS, 0, x[k]);
    }
    if (!by_hand()) puts("fractions weighed by hand are not taken as they should be");
    return 0;
}
