/* kiltgrit.h: activity coefficients for solvent-recovery stills (Wilson, UNIQUAC, NRTL, UNIFAC), for C11 and C++11 on
 * x86-64 Linux. Link libkiltgrit.a; beside it the code needs memcpy and memset alone. examples/gamma.c is a program.
 *
 *     static kiltgrit_mixture m;                                           any content before kiltgrit_open
 *     kiltgrit_refusal r = kiltgrit_open(&m);
 *     if (!r) r = kiltgrit_load(&m, KILTGRIT_WILSON, 2, given, KILTGRIT_WILSON_VALUES(2));
 *     if (!r) r = kiltgrit_set(&m, kiltgrit_temperature(328.7));
 *     if (!r) r = kiltgrit_fractions(&m, x, 2);
 *     if (!r) r = kiltgrit_query(&m, KILTGRIT_LN_GAMMA, 0, &value, NULL);  works out what was set since the last one
 *     if (r) puts(kiltgrit_words(r));
 *
 * Models     Components, groups and places of a list count from 0. T and the energies a are in kelvin (energy over R).
 *              Wilson    Lambda_ij = V_j/V_i exp(-(a_ij - a_ii)/T); ln gamma_i has ln sum_j x_j Lambda_ij
 *              UNIQUAC   tau_ij = exp(-(a_ij - a_ii)/T), z = 10; ln gamma_i has ln sum_j theta_j tau_ji
 *              NRTL      G_ij = exp(-alpha_ij tau_ij); ln gamma_i has sum_j x_j G_ji tau_ji / sum_j x_j G_ji; tau_ii
 *                        and alpha_ii aren't read
 *              UNIFAC    psi_mn = exp(-a_mn/T); ln Gamma_k has ln sum_m Theta_m psi_mk; the combinatorial part of 1975
 *            NRTL's tau_ij and UNIFAC's a_mn are a + b/T + c ln T + d T + e/T^2. Published energies of Wilson and
 *            UNIQUAC are differences: give them as they are, and 0 on the diagonal. Of absolute ones UNIQUAC takes
 *            a_ij - a_jj, with 0 on the diagonal; Wilson forms a_ij - a_ii by itself. Aspen's b_ij has the other sign.
 * Answers    Every call returns whatever numbers it is given. A refused call has changed nothing and says why. Numbers
 *            are judged only where a refusal names them: T = 0, a NaN or negative fraction or a size of 0 are taken,
 *            and the answer is a NaN or means nothing. UNIQUAC at x_i = 0 gives a NaN for component i and for the
 *            excess energy, as its source does; 1e-300 in its place gives the limit.
 * Memory     No heap, no file, no global that is written, no callback. The mixture is the caller's: one
 *            kiltgrit_mixture of 55,232 bytes, static or on a stack. It has no pointers, so a copy by assignment is a
 *            mixture of its own. Open it first: what no call has made, RAM that outlived a reset too, may look like a
 *            loaded mixture, and is then answered from.
 * Threads    Calls on different mixtures may run at once. Calls on one mixture must not overlap.
 * Floats     IEEE 754, round to nearest even, subnormals kept: leave MXCSR as the system sets it (no -ffast-math at
 *            the link, no fesetround). kiltgrit_floats_ok says whether that is so; ask it at the start of each thread
 *            that calls. A NaN's sign and payload are unspecified.
 * Stack      A query takes up to 9 KB, a plain call 16 KB, kiltgrit_run 136 KB, any other call 3 KB, with the inline
 *            functions below. A mixture on the stack, and what binds memcpy lazily at its first call, come on top.
 * Pointers   Each is aligned and has as many places as the length beside it says. None is NULL, but a query's counts.
 * Versions   Header and archive are of one version: kiltgrit_version() == KILTGRIT_VERSION. The inline functions stay
 *            as they are within a MAJOR; a raw call, or what a struct's kept fields hold, may change with a MINOR.
 * Trusted    The calls of the archive are proved, each by one equation. The inline functions below, which hand them the
 *            mixture's parts, are not: they are tested (host/inline.c).
 */
#ifndef KILTGRIT_H
#define KILTGRIT_H

#include <stddef.h>
#include <stdint.h>

#ifdef __cplusplus
extern "C" {
#define KILTGRIT_STATIC_ASSERT(c, why) static_assert(c, why)
#define KILTGRIT_ZERO_ {}
#else
#define KILTGRIT_STATIC_ASSERT(c, why) _Static_assert(c, why)
#define KILTGRIT_ZERO_ {0}
#endif

#define KILTGRIT_VERSION_MAJOR 1
#define KILTGRIT_VERSION_MINOR 3
#define KILTGRIT_VERSION_PATCH 0
#define KILTGRIT_VERSION (KILTGRIT_VERSION_MAJOR * 65536u + KILTGRIT_VERSION_MINOR * 256u + KILTGRIT_VERSION_PATCH)

/* A refusal that nobody looks at is a warning. */
#if defined(__GNUC__)
#define KILTGRIT_CHECK_ __attribute__((warn_unused_result))
#else
#define KILTGRIT_CHECK_
#endif

/* ---- sizes; cells and marks have room for what later versions lend */
#define KILTGRIT_MAX_COMPONENTS 12
#define KILTGRIT_MAX_GROUPS 32
#define KILTGRIT_MAX_LIST 12 /* groups of one component */
#define KILTGRIT_VALUES 5328
#define KILTGRIT_CELLS 1408
#define KILTGRIT_MARKS 1036
#define KILTGRIT_MAX_STRIP 65536 /* bytes; a longer one is answered `broken` */
#define KILTGRIT_MAX_TEXT 655367 /* bytes of the longest text that a strip is answered with */

/* How many values a load takes, exactly. Tables stand by rows: entry 0 0, 0 1, .., then 1 0, 1 1, ..; a td entry is
 * five numbers, a to e. */
/* a; V in any one unit */
#define KILTGRIT_WILSON_VALUES(n) ((n) * (n) + (n))
/* a; r of each; q of each */
#define KILTGRIT_UNIQUAC_VALUES(n) ((n) * (n) + 2 * (n))
/* tau, td entries; alpha, both ways */
#define KILTGRIT_NRTL_VALUES(n) (6 * (n) * (n))
/* R of each group; Q of each; a, td entries; how often each listed group is in its component, list after list */
#define KILTGRIT_UNIFAC_VALUES(ng, listed) (2 * (ng) + 5 * (ng) * (ng) + (listed))

/* By how much the sum of fractions may be off 1 after a load; kiltgrit_tolerance below sets it. */
#define KILTGRIT_USUAL_TOLERANCE 1e-6

/* ---- what a call answers */
typedef enum kiltgrit_refusal {
    KILTGRIT_OK = 0,
    KILTGRIT_BAD_MEMORY = 1,       /* a lent slice is short, or the head is out of range */
    KILTGRIT_BAD_SHAPE = 2,        /* no such model; not 1-12 components, 1-32 groups, lists up to 12; a length off */
    KILTGRIT_NO_GROUP = 3,         /* a list names a group that isn't there */
    KILTGRIT_NEGATIVE_COUNT = 4,   /* a count of a group below 0 */
    KILTGRIT_NO_FRACTIONS = 5,     /* no fractions at all */
    KILTGRIT_BAD_SUM = 6,          /* the sum of the fractions is off 1 by more than the tolerance; a NaN passes */
    KILTGRIT_NO_COMPONENT = 7,     /* no such component or quantity; not as many fractions (their sum comes first) */
    KILTGRIT_NO_MODEL = 8,         /* nothing is loaded */
    KILTGRIT_NOT_SET = 9,          /* temperature or fractions, since the load */
    KILTGRIT_NO_PARAMETER = 10,    /* this model has no such parameter, or no such kind of setting */
    KILTGRIT_NOT_SHOWN = 11,       /* NaN, infinite, or 2048 or more in size: no millionths of it */
    KILTGRIT_BAD_FIELD = 12,       /* a list: a field of another form, not n rows of n fields, no last line feed */
    KILTGRIT_TOO_MANY_DIGITS = 13, /* a list: a field that is wrong only by more than 15 digits */
    KILTGRIT_BAD_TOLERANCE = 14    /* a tolerance that is a NaN, below 0 or above 1e-3 */
} kiltgrit_refusal;

/* The same in words, for a display or a log. */
static inline const char *kiltgrit_words(kiltgrit_refusal refusal) {
    switch (refusal) {
    case KILTGRIT_OK: return "ok";
    case KILTGRIT_BAD_MEMORY: return "memory or head out of range";
    case KILTGRIT_BAD_SHAPE: return "model, size or length out of range";
    case KILTGRIT_NO_GROUP: return "no such group";
    case KILTGRIT_NEGATIVE_COUNT: return "negative count of a group";
    case KILTGRIT_NO_FRACTIONS: return "no fractions";
    case KILTGRIT_BAD_SUM: return "fractions do not add up to 1";
    case KILTGRIT_NO_COMPONENT: return "no such component or quantity, or not as many fractions";
    case KILTGRIT_NO_MODEL: return "no model loaded";
    case KILTGRIT_NOT_SET: return "temperature or fractions not set";
    case KILTGRIT_NO_PARAMETER: return "no such parameter in this model";
    case KILTGRIT_NOT_SHOWN: return "not a number, infinite, or 2048 or more in size";
    case KILTGRIT_BAD_FIELD: return "list: a field of another form, or not as many fields or rows";
    case KILTGRIT_TOO_MANY_DIGITS: return "list: a field of more than 15 digits";
    case KILTGRIT_BAD_TOLERANCE: return "tolerance not a number, below 0 or above 0.001";
    }
    return "unknown";
}

typedef enum kiltgrit_model {
    KILTGRIT_WILSON = 1,
    KILTGRIT_UNIQUAC = 2,
    KILTGRIT_NRTL = 3,
    KILTGRIT_UNIFAC = 4
} kiltgrit_model;

typedef enum kiltgrit_asked {
    KILTGRIT_LN_GAMMA = 0,
    KILTGRIT_GAMMA = 1,
    KILTGRIT_EXCESS_GIBBS = 2 /* g^E/(RT) */
} kiltgrit_asked;

/* ---- what crosses by value. The fields are the library's: read none, write none.
 * The head has the order and the offsets of the library's own. Flags are bytes, set where they are 1. form and changes
 * are kept for later versions: written 0 and not read, as the unused bytes. */
typedef struct kiltgrit_head {
    uint8_t model, form, unused[6];
    size_t n, ng;
    uint8_t lens[KILTGRIT_MAX_COMPONENTS], groups[KILTGRIT_MAX_COMPONENTS * KILTGRIT_MAX_LIST];
    uint32_t changes;
    double t, x[KILTGRIT_MAX_COMPONENTS];
    uint8_t has_t, has_x, also_unused[6];
    double tolerance;
} kiltgrit_head;

/* A refusal has the head as it came, its number, and 0 in the other fields. */
typedef struct kiltgrit_reply {
    kiltgrit_head head;
    double value;
    size_t cells_worked, renewed;
    uint32_t refused, unused;
} kiltgrit_reply;

/* Of a call that leaves the head. */
typedef struct kiltgrit_answer {
    double value;
    size_t cells_worked, renewed;
    uint32_t refused, unused;
} kiltgrit_answer;

/* The exponentials of E, G or psi that a query worked out; gamma's own exp isn't counted. renewed is kept for later. */
typedef struct kiltgrit_counts {
    size_t cells_worked, renewed;
} kiltgrit_counts;

/* A setting; kiltgrit_temperature, _entry, _td, _size, _count and _tolerance below make one. */
typedef struct kiltgrit_setting {
    double v[5];
    size_t i, j;
    uint32_t kind, unused;
} kiltgrit_setting;

KILTGRIT_STATIC_ASSERT(sizeof(size_t) == 8 && sizeof(double) == 8, "64-bit words");
KILTGRIT_STATIC_ASSERT(sizeof(kiltgrit_head) == 304, "the head as the library has it");
KILTGRIT_STATIC_ASSERT(offsetof(kiltgrit_head, changes) == 180 && offsetof(kiltgrit_head, has_t) == 288, "no padding");
KILTGRIT_STATIC_ASSERT(sizeof(kiltgrit_reply) == 336, "the reply as the library has it");
KILTGRIT_STATIC_ASSERT(sizeof(kiltgrit_answer) == 32, "the answer as the library has it");
KILTGRIT_STATIC_ASSERT(sizeof(kiltgrit_counts) == 16, "the counts");
KILTGRIT_STATIC_ASSERT(sizeof(kiltgrit_setting) == 64, "the setting as the library has it");

/* 65536 MAJOR + 256 MINOR + PATCH of the archive: KILTGRIT_VERSION where the header is its own. */
uint32_t kiltgrit_version(void);

/* An opening looks at the lengths alone, so that memory of any content can be lent without a warning. */
#if defined(__GNUC__) && !defined(__clang__) && __GNUC__ >= 11
#define KILTGRIT_UNREAD_ __attribute__((access(none, 1), access(none, 3), access(none, 5)))
#else
#define KILTGRIT_UNREAD_
#endif

/* ---- the raw calls, for a host that lays out its own memory. A slice is a pointer and how many; one that is written
 * overlaps no other. Each call takes the head that the last one gave back; a query leaves it. A form is kept for later:
 * 0. */

/* Gives the head of a mixture without a model. */
KILTGRIT_UNREAD_
kiltgrit_reply kiltgrit_mixture_open(const double *values, size_t values_len, const double *cells, size_t cells_len,
                                     const uint8_t *marks, size_t marks_len, kiltgrit_head head);
/* Writes the model's values and makes all its cells stale; ng, lens and groups count for UNIFAC alone. */
kiltgrit_reply kiltgrit_mixture_load(double *values, size_t values_len, const double *cells, size_t cells_len,
                                     uint8_t *marks, size_t marks_len, kiltgrit_head head, uint32_t model,
                                     uint32_t form, size_t n, size_t ng, const uint8_t *lens, size_t lens_len,
                                     const uint8_t *groups, size_t groups_len, const double *given, size_t given_len);
/* Writes the values that the setting names and makes the cells that it is an input of stale. */
kiltgrit_reply kiltgrit_mixture_set(double *values, size_t values_len, const double *cells, size_t cells_len,
                                    uint8_t *marks, size_t marks_len, kiltgrit_head head, kiltgrit_setting s);
/* Keeps the fractions in the head, where the head's tolerance takes them. */
kiltgrit_reply kiltgrit_mixture_fractions(const double *values, size_t values_len, const double *cells,
                                          size_t cells_len, const uint8_t *marks, size_t marks_len, kiltgrit_head head,
                                          const double *x, size_t x_len);
/* Works out every stale cell, marks it fresh, and gives the value with their number. */
kiltgrit_answer kiltgrit_mixture_query(const double *values, size_t values_len, double *cells, size_t cells_len,
                                       uint8_t *marks, size_t marks_len, kiltgrit_head head, uint32_t asked, size_t i);

/* ---- a plain call takes everything at once and keeps nothing */
typedef struct kiltgrit_value {
    double value;
    uint32_t refused, unused;
} kiltgrit_value;
KILTGRIT_STATIC_ASSERT(sizeof(kiltgrit_value) == 16, "the value as the library has it");

kiltgrit_value kiltgrit_plain(uint32_t model, uint32_t form, size_t n, size_t ng, const uint8_t *lens, size_t lens_len,
                              const uint8_t *groups, size_t groups_len, const double *values, size_t values_len,
                              double t, double tolerance, const double *x, size_t x_len, uint32_t asked, size_t i);

/* ---- the check of fractions alone, whatever the model: KILTGRIT_OK, or the first of KILTGRIT_BAD_TOLERANCE,
 * KILTGRIT_NO_FRACTIONS and KILTGRIT_BAD_SUM */
KILTGRIT_CHECK_
uint32_t kiltgrit_check_composition(double tolerance, const double *x, size_t x_len);

/* ---- the exponential and the logarithm of the models, with the same bits everywhere */
double kiltgrit_exp(double v);
double kiltgrit_log(double v);

/* ---- ln gamma on a panel: v as a whole number of millionths, rounded to nearest and at a tie to the even one, so that
 * two panels show the same digits: -144094 is -0.144094. `refused` is KILTGRIT_OK or KILTGRIT_NOT_SHOWN, and then
 * `millionths` is 0. */
typedef struct kiltgrit_shown {
    int64_t millionths;
    uint32_t refused, unused;
} kiltgrit_shown;
KILTGRIT_STATIC_ASSERT(sizeof(kiltgrit_shown) == 16, "what is shown as the library has it");

kiltgrit_shown kiltgrit_millionths(double v);

/* ---- a supplier's list: n rows of n energies, by commas, each row ended by one line feed. A field is an optional minus,
 * 1 to 15 digits, and optionally one point with a digit on both sides; it becomes the nearest double, -0 for a minus zero.
 * KILTGRIT_OK: the n * n entries are written, by rows: the first values of a load of Wilson or UNIQUAC, in the list's
 * unit. Else nothing is: KILTGRIT_BAD_SHAPE for n not 1-12 or another length of entries, then the first in reading order
 * of KILTGRIT_BAD_FIELD and KILTGRIT_TOO_MANY_DIGITS. Blanks, CR, a plus or an exponent are of another form. */
KILTGRIT_CHECK_
uint32_t kiltgrit_import(const uint8_t *text, size_t text_len, size_t n, double *entries, size_t entries_len);

/* ---- a strip of records (examples/run --strip writes one) run whole: its text goes to out as far as it fits, without
 * a NUL, and its length comes back, KILTGRIT_MAX_TEXT at most */
size_t kiltgrit_run(const uint8_t *strip, size_t strip_len, uint8_t *out, size_t out_len);

/* ---- the mixture as one object */
typedef struct kiltgrit_mixture {
    double values[KILTGRIT_VALUES], cells[KILTGRIT_CELLS];
    kiltgrit_head head;
    uint8_t marks[KILTGRIT_MARKS], unused[4];
} kiltgrit_mixture;
KILTGRIT_STATIC_ASSERT(sizeof(kiltgrit_mixture) == 55232, "the mixture");
#define KILTGRIT_LENT_(m) (m)->values, KILTGRIT_VALUES, (m)->cells, KILTGRIT_CELLS, (m)->marks, KILTGRIT_MARKS

static inline kiltgrit_refusal kiltgrit_took_(kiltgrit_mixture *m, const kiltgrit_reply *r) {
    m->head = r->head;
    return (kiltgrit_refusal)r->refused;
}

/* Whatever the memory holds, m is then a mixture with no model, and a load comes next. Never refused. */
static inline kiltgrit_refusal kiltgrit_open(kiltgrit_mixture *m) {
    static const kiltgrit_head none = KILTGRIT_ZERO_;
    const kiltgrit_reply r = kiltgrit_mixture_open(KILTGRIT_LENT_(m), none);
    return kiltgrit_took_(m, &r);
}

/* Loads Wilson, UNIQUAC or NRTL; temperature and fractions are unset by it. */
KILTGRIT_CHECK_
static inline kiltgrit_refusal kiltgrit_load(kiltgrit_mixture *m, kiltgrit_model model, size_t n, const double *given,
                                             size_t given_len) {
    const uint8_t none = 0;
    const kiltgrit_reply r = kiltgrit_mixture_load(KILTGRIT_LENT_(m), m->head, (uint32_t)model, 0, n, 0, &none, 0,
                                                   &none, 0, given, given_len);
    return kiltgrit_took_(m, &r);
}

/* Loads UNIFAC: lens[i] groups of component i stand in `groups`, list after list; their counts end `given`. */
KILTGRIT_CHECK_
static inline kiltgrit_refusal kiltgrit_load_unifac(kiltgrit_mixture *m, size_t n, size_t ng, const uint8_t *lens,
                                                    const uint8_t *groups, size_t listed, const double *given,
                                                    size_t given_len) {
    const kiltgrit_reply r = kiltgrit_mixture_load(KILTGRIT_LENT_(m), m->head, KILTGRIT_UNIFAC, 0, n, ng, lens, n,
                                                   groups, listed, given, given_len);
    return kiltgrit_took_(m, &r);
}

static inline kiltgrit_setting kiltgrit_setting_(uint32_t kind, size_t i, size_t j, double v) {
    const kiltgrit_setting s = {{v, 0.0, 0.0, 0.0, 0.0}, i, j, kind, 0};
    return s;
}
/* T in kelvin */
static inline kiltgrit_setting kiltgrit_temperature(double kelvin) { return kiltgrit_setting_(5, 0, 0, kelvin); }
/* Wilson's or UNIQUAC's a_ij in kelvin, or NRTL's alpha_ij (alpha_ji stays) */
static inline kiltgrit_setting kiltgrit_entry(size_t i, size_t j, double v) { return kiltgrit_setting_(7, i, j, v); }
/* NRTL's tau_ij or UNIFAC's a_mn, all five: a + b/T + c ln T + d T + e/T^2 */
static inline kiltgrit_setting kiltgrit_td(size_t i, size_t j, double a, double b, double c, double d, double e) {
    const kiltgrit_setting s = {{a, b, c, d, e}, i, j, 8, 0};
    return s;
}
/* of component or group i, which: 0 for V, r or R, 1 for q or Q */
static inline kiltgrit_setting kiltgrit_size(size_t i, size_t which, double v) {
    return kiltgrit_setting_(9, i, which, v);
}
/* how often the group at a place of component i's list is in it */
static inline kiltgrit_setting kiltgrit_count(size_t i, size_t place, double v) {
    return kiltgrit_setting_(10, i, place, v);
}
/* by how much the sum of fractions may be off 1 from now on, 0 to 1e-3; fractions that were taken stay */
static inline kiltgrit_setting kiltgrit_tolerance(double tolerance) { return kiltgrit_setting_(14, 0, 0, tolerance); }

/* Replaces one parameter, the temperature or the tolerance, by the same value too; the next query works out again what
 * it is an input of, and nothing else. */
KILTGRIT_CHECK_
static inline kiltgrit_refusal kiltgrit_set(kiltgrit_mixture *m, kiltgrit_setting s) {
    const kiltgrit_reply r = kiltgrit_mixture_set(KILTGRIT_LENT_(m), m->head, s);
    return kiltgrit_took_(m, &r);
}

/* The mole fractions of the n components; they add up to 1 within the tolerance, and are taken as they are. */
KILTGRIT_CHECK_
static inline kiltgrit_refusal kiltgrit_fractions(kiltgrit_mixture *m, const double *x, size_t n) {
    const kiltgrit_reply r = kiltgrit_mixture_fractions(KILTGRIT_LENT_(m), m->head, x, n);
    return kiltgrit_took_(m, &r);
}

/* *value, and *counts unless that is NULL, are written only where KILTGRIT_OK is returned. i doesn't count for the
 * excess energy. */
KILTGRIT_CHECK_
static inline kiltgrit_refusal kiltgrit_query(kiltgrit_mixture *m, kiltgrit_asked asked, size_t i, double *value,
                                              kiltgrit_counts *counts) {
    const kiltgrit_answer a = kiltgrit_mixture_query(KILTGRIT_LENT_(m), m->head, (uint32_t)asked, i);
    if (a.refused == KILTGRIT_OK) {
        *value = a.value;
        if (counts) {
            counts->cells_worked = a.cells_worked;
            counts->renewed = a.renewed;
        }
    }
    return (kiltgrit_refusal)a.refused;
}

/* The same at once, of Wilson, UNIQUAC or NRTL, with the usual tolerance; *value is written only where KILTGRIT_OK is
 * returned. */
KILTGRIT_CHECK_
static inline kiltgrit_refusal kiltgrit_value_at(kiltgrit_model model, size_t n, const double *given, size_t given_len,
                                                 double kelvin, const double *x, kiltgrit_asked asked, size_t i,
                                                 double *value) {
    const uint8_t none = 0;
    const kiltgrit_value a = kiltgrit_plain((uint32_t)model, 0, n, 0, &none, 0, &none, 0, given, given_len, kelvin,
                                            KILTGRIT_USUAL_TOLERANCE, x, n, (uint32_t)asked, i);
    if (a.refused == KILTGRIT_OK) *value = a.value;
    return (kiltgrit_refusal)a.refused;
}

/* And of UNIFAC. */
KILTGRIT_CHECK_
static inline kiltgrit_refusal kiltgrit_unifac_value_at(size_t n, size_t ng, const uint8_t *lens, const uint8_t *groups,
                                                        size_t listed, const double *given, size_t given_len,
                                                        double kelvin, const double *x, kiltgrit_asked asked, size_t i,
                                                        double *value) {
    const kiltgrit_value a = kiltgrit_plain(KILTGRIT_UNIFAC, 0, n, ng, lens, n, groups, listed, given, given_len,
                                            kelvin, KILTGRIT_USUAL_TOLERANCE, x, n, (uint32_t)asked, i);
    if (a.refused == KILTGRIT_OK) *value = a.value;
    return (kiltgrit_refusal)a.refused;
}

/* 1 where floats are rounded to nearest even and subnormals kept, which every answer rests on: half of the least normal
 * number, two sums that nearest even rounds down and up, and exp and log on known bits. */
static inline int kiltgrit_floats_ok(void) {
    volatile double least = 2.2250738585072014e-308, one = 1.0, ulp = 2.2204460492503131e-16;
    const double half = least * 0.5, down = one + ulp * 0.5, up = (one + ulp) + ulp * 0.5, minus = -one - ulp * 0.5;
    return half > 0.0 && half + half == least && down == 1.0 && up == 1.0 + 2.0 * ulp && minus == -1.0 &&
           kiltgrit_exp(-1.0) == 0.36787944117144233 && kiltgrit_log(3.0) == 1.0986122886681096;
}

#ifdef __cplusplus
}
#endif
#endif
