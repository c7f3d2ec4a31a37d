#!/usr/bin/env python3
"""How far exp and log are from the true values, in units in the last place (ulp).

usage: host/accuracy.py [N]
Works document 01's steps in Python's floats, holds them to the stored answers of crates/replay/data first, and then
compares N (200,000) random inputs of each with mpmath at 40 digits. Needs python3 with mpmath; the gate does not run it.
"""
import math, pathlib, random, struct, sys

import mpmath

mpmath.mp.prec = 140
P = [1.66666666666666019037e-01, -2.77777777770155933842e-03, 6.61375632143793436117e-05, -1.65339022054652515390e-06, 4.13813679705723846039e-08]
G = [6.666666666666735130e-01, 3.999999999940941908e-01, 2.857142874366239149e-01, 2.222219843214978396e-01, 1.818357216161805012e-01, 1.531383769920937332e-01, 1.479819860511658591e-01]
L1, L2 = 6.93147180369123816490e-01, 1.90821492927058770002e-10


def of_bits(b):
    return struct.unpack("<d", struct.pack("<Q", b))[0]


def to_bits(v):
    return struct.unpack("<Q", struct.pack("<d", v))[0]


M = of_bits(0x3FE6A09E00000000)


def exp(v):
    if v != v:
        return v
    if v > 709.782712893383973096:
        return math.inf
    if v < -745.13321910194110842:
        return 0.0
    if abs(v) <= 2.0**-28:
        return 1.0 + v
    k = int(1.4426950408889634 * v + (-0.5 if v < 0 else 0.5))
    hi, lo = v - k * L1, k * L2
    r = hi - lo
    q = r * r
    c = r - q * (P[0] + q * (P[1] + q * (P[2] + q * (P[3] + q * P[4]))))
    y = 1.0 + (r * c / (2.0 - c) - lo + hi)
    if k > 1023:
        return y * 2.0**1023 * 2.0 ** (k - 1023)
    if k < -1022:
        return y * 2.0 ** (k + 1000) * 2.0**-1000
    return y * 2.0**k


def log(v):
    if v != v or v < 0:
        return math.nan
    if v == 0:
        return -math.inf
    if v == math.inf or v == 1:
        return 0.0 if v == 1 else v
    m, k = math.frexp(v)
    if m < M:
        m, k = 2 * m, k - 1
    f = m - 1.0
    p = 0.5 * f * f
    s = f / (2.0 + f)
    z = s * s
    w = z * z
    t1 = w * (G[1] + w * (G[3] + w * G[5]))
    t2 = z * (G[0] + w * (G[2] + w * (G[4] + w * G[6])))
    return s * (p + (t2 + t1)) + k * L2 - p + f + k * L1


def hold(name, f):
    """The steps above give the stored answers."""
    data = pathlib.Path(__file__).parent.parent / f"crates/replay/data/{name}.txt"
    lines = data.read_text().splitlines()
    for line in lines:
        given, answer = (int(w, 16) for w in line.split())
        got = f(of_bits(given))
        got = 0x7FF8000000000000 if got != got else to_bits(got)
        if got != answer:
            sys.exit(f"{name} {given:016x}: {got:016x} here, {answer:016x} stored")
    return len(lines)


def off(got, true):
    """|got - true| in units in the last place of the f64 nearest to true."""
    near = float(true)
    if near == got == 0.0 or math.isinf(near):
        return mpmath.mpf(0) if near == got else mpmath.inf
    return abs(mpmath.mpf(got) - true) / mpmath.mpf(math.ulp(near))


def measure(name, f, true, inputs):
    errors = [(off(f(v), true(mpmath.mpf(v))), v) for v in inputs]
    worst = max(errors)
    wrong = sum(1 for v in inputs if f(v) != float(true(mpmath.mpf(v))))
    print(f"{name}: {len(inputs)} inputs, worst {float(worst[0]):.4f} ulp at {worst[1]!r}, {100 * wrong / len(inputs):.2f} % not the nearest f64")


count = int(sys.argv[1]) if len(sys.argv) > 1 else 200000
print("stored answers:", hold("exp", exp), "of exp,", hold("log", log), "of log, all the same")
random.seed(1)
measure("exp, -708 to 709", exp, mpmath.exp, [random.uniform(-708, 709) for _ in range(count)])
measure("exp, -1 to 1", exp, mpmath.exp, [random.uniform(-1, 1) for _ in range(count)])
measure("exp, subnormal results", exp, mpmath.exp, [random.uniform(-745, -708.4) for _ in range(count // 10)])
measure("log, all positive", log, mpmath.log, [of_bits(random.randrange(1, 0x7FF0000000000000)) for _ in range(count)])
measure("log, 0.5 to 2", log, mpmath.log, [random.uniform(0.5, 2) for _ in range(count)])
measure("log, 250 to 600 (kelvin)", log, mpmath.log, [random.uniform(250, 600) for _ in range(count)])
