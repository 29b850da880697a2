#!/usr/bin/env python3
"""Makes the questions and answers of the program element_cases: data/questions.txt and stdout in crates/element_cases.

    tools/element_cases.py [DIR]      DIR is the crate's folder (default: crates/element_cases)

It shares nothing with the code that it is compared with. Elements are polynomials over the integers modulo p; a product is the
whole polynomial product, divided with remainder by x^D - w; an inverse comes from the extended Euclidean algorithm on
polynomials, and not from a norm. Roots are powers of the generator of the multiplicative group, and not squares of a table.
"""
import random
import sys
from pathlib import Path

class Kind:
    def __init__(self, name, p, d, w, k, g, order_two):
        self.name, self.p, self.d, self.k, self.g = name, p, d, k, g
        self.poly = [-w % p] + [0] * (d - 1) + [1]          # x^d - w
        self.order_two = order_two                          # w(K) = g^order_two

def trim(a):
    while a and a[-1] == 0:
        a = a[:-1]
    return a

def divide(a, b, p):
    """Quotient and remainder of polynomials, lowest coefficient first."""
    a, q = list(a), [0] * max(len(a) - len(b) + 1, 0)
    lead = pow(b[-1], -1, p)
    for i in range(len(a) - len(b), -1, -1):
        q[i] = a[i + len(b) - 1] * lead % p
        for j, c in enumerate(b):
            a[i + j] = (a[i + j] - q[i] * c) % p
    return trim(q), trim(a)

def times(a, b, p):
    out = [0] * max(len(a) + len(b) - 1, 0)
    for i, x in enumerate(a):
        for j, y in enumerate(b):
            out[i + j] += x * y
    return trim([c % p for c in out])

def full(a, d):
    return tuple(a) + (0,) * (d - len(a))

def product(f, a, b):
    return full(divide(times(a, b, f.p), f.poly, f.p)[1], f.d)

def inverse(f, a):
    r0, r1, t0, t1 = f.poly, trim(list(a)), [], [1]
    while r1:
        q, r = divide(r0, r1, f.p)
        r0, r1 = r1, r
        qt = times(q, t1, f.p)
        n = max(len(t0), len(qt))
        t0, t1 = t1, trim([((t0[i] if i < len(t0) else 0) - (qt[i] if i < len(qt) else 0)) % f.p for i in range(n)])
    if len(r0) != 1:
        return None
    scale = pow(r0[0], -1, f.p)
    answer = full(divide([c * scale % f.p for c in t0], f.poly, f.p)[1], f.d)
    assert product(f, a, answer) == full([1], f.d)
    return answer

def power(f, a, n):
    out = full([1], f.d)
    for bit in bin(n)[2:]:
        out = product(f, out, out)
        if bit == "1":
            out = product(f, out, a)
    return out

def text(a):
    return ",".join(str(c) for c in a)

KINDS = [
    Kind("f257", 257, 1, 1, 7, 3, 2),
    Kind("babybear", 2013265921, 4, 11, 27, 31, 15),
]

def samples(f, rnd, count):
    edge = [0, 1, 2, f.p - 1, f.p - 2, (f.p - 1) // 2, (f.p + 1) // 2]
    yield full([0], f.d)
    yield full([f.p - 1] * f.d, f.d)
    for i in range(f.d):
        yield tuple(1 if j == i else 0 for j in range(f.d))
        yield tuple(f.p - 1 if j == i else 0 for j in range(f.d))
    for _ in range(count):
        yield tuple(rnd.choice(edge) if rnd.random() < 0.4 else rnd.randrange(f.p) for _ in range(f.d))

def cases(f, rnd):
    some = list(samples(f, rnd, 40))
    for a in some:
        yield f"inverse {text(a)}", inverse(f, a)
        yield f"negation {text(a)}", tuple(-c % f.p for c in a)
    for a in samples(f, rnd, 60):
        b = rnd.choice(some)
        yield f"product {text(a)} {text(b)}", product(f, a, b)
        yield f"sum {text(a)} {text(b)}", tuple((x + y) % f.p for x, y in zip(a, b))
        yield f"difference {text(a)} {text(b)}", tuple((x - y) % f.p for x, y in zip(a, b))
    for n in [0, 1, 2, 3, 256, 2**31 - 1, 2**63 + 12345, 2**64 - 1]:
        a = rnd.choice(some)
        yield f"power {text(a)} {n}", power(f, a, n)
        x = divide([0, 1], f.poly, f.p)[1]                  # at D = 1 this is 1
        yield f"basis {n}", power(f, full(x, f.d), n)
    for n in [0, 1, f.p - 1, f.p, f.p + 1, 2**32 - 1]:
        yield f"embed {n}", full([n % f.p], f.d)
    last = pow(f.g, f.order_two, f.p)
    for n in range(f.k + 2):
        yield f"root {n}", full([pow(last, 2 ** (f.k - n), f.p)], f.d) if n <= f.k else None
    if f.p == 257:
        for n in range(257):
            yield f"inverse {n}", inverse(f, (n,))

def main():
    folder = Path(sys.argv[1] if len(sys.argv) > 1 else "crates/element_cases")
    rnd = random.Random(20261118)
    questions, answers = [], ["x*x^3 = 11,0,0,0"]
    for f in KINDS:
        for question, answer in cases(f, rnd):
            questions.append(f"{f.name} {question}")
            answers.append(f"{f.name} {question} = {'none' if answer is None else text(answer)}")
    (folder / "data" / "questions.txt").write_text("\n".join(questions) + "\n")
    (folder / "stdout").write_text("\n".join(answers) + "\n")
    print(len(questions), "questions")

if __name__ == "__main__":
    main()
