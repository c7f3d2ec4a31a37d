/* kiltgrit_floats_ok says no in every other rounding mode, and where subnormals are flushed as results or as operands;
 * kiltgrit_millionths shows the same digits in all of them. */
#include "kiltgrit.h"

#include <fenv.h>
#include <stdio.h>
#include <xmmintrin.h>

/* Ties and their neighbours, a subnormal, and a number that is refused. */
static int panel_wrong(void) {
    const double v[] = {1.0 / 128.0, -3.0 / 128.0, 0.0078125000000000017, -0.023437499999999997, -5e-324, 2048.0};
    const int64_t millionths[] = {7812, -23438, 7813, -23437, 0, 0};
    int wrong = 0;
    for (int k = 0; k < 6; k++) {
        const kiltgrit_shown s = kiltgrit_millionths(v[k]);
        wrong += s.millionths != millionths[k] || s.refused != (k < 5 ? KILTGRIT_OK : KILTGRIT_NOT_SHOWN);
    }
    return wrong;
}

int main(void) {
    const int modes[] = {FE_UPWARD, FE_DOWNWARD, FE_TOWARDZERO};
    const unsigned flags[] = {0x8000u /* results */, 0x0040u /* operands */};
    const unsigned csr = _mm_getcsr();
    int wrong = kiltgrit_floats_ok() != 1, shown_wrong = panel_wrong();
    for (int k = 0; k < 3; k++) {
        fesetround(modes[k]);
        wrong += kiltgrit_floats_ok() != 0;
        shown_wrong += panel_wrong();
    }
    fesetround(FE_TONEAREST);
    for (int k = 0; k < 2; k++) {
        _mm_setcsr(csr | flags[k]);
        wrong += kiltgrit_floats_ok() != 0;
        shown_wrong += panel_wrong();
    }
    _mm_setcsr(csr);
    wrong += kiltgrit_floats_ok() != 1;
    printf("kiltgrit_floats_ok: 7 asked, %d wrong; kiltgrit_millionths: 36 asked, %d wrong\n", wrong, shown_wrong);
    return wrong + shown_wrong != 0;
}
