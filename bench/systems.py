"""Systems of polynomials that reduced bases are timed on: those of the literature by their formulas, and some of other kinds.

`SYSTEMS` has for each name a function that gives the names of the variables and the polynomials, as texts in which products and powers may stand.
"""
import collections
import itertools
import math


def cyclic(n):
    """Cyclic: the sums of products of d neighbours in a ring of n variables, for d below n, and the product of all less 1."""
    names = [f"x{i}" for i in range(n)]
    sums = [" + ".join("*".join(names[(i + j) % n] for j in range(d)) for i in range(n)) for d in range(1, n)]
    return names, [*sums, "*".join(names) + " - 1"]


def katsura(n):
    """The sum of u_i*u_(m-i) over all whole i is u_m, for m below n, and all u_i sum to 1, where u_(-i) is u_i, and 0 for i above n."""
    names = [f"u{i}" for i in range(n + 1)]
    equations = []
    for m in range(n):
        products = collections.Counter(tuple(sorted((abs(i), abs(m - i)))) for i in range(-n, n + 1) if abs(m - i) <= n)
        equations.append(" + ".join(f"{times}*{names[a]}*{names[b]}" for (a, b), times in products.items()) + f" - {names[m]}")
    return names, [*equations, " + ".join([names[0], *(f"2*{name}" for name in names[1:])]) + " - 1"]


def economics(n):
    names = [f"x{i}" for i in range(1, n + 1)]
    *others, last = names
    products = [" + ".join([others[k], *(f"{others[i]}*{others[i + k + 1]}" for i in range(n - 2 - k))]) for k in range(n - 1)]
    return names, [*(f"({product})*{last} - {k + 1}" for k, product in enumerate(products)), " + ".join(others) + " + 1"]


def noonburg(n):
    names = [f"x{i}" for i in range(1, n + 1)]
    return names, [f"10*{x}*({' + '.join(f'{y}^2' for y in names if y != x)}) - 11*{x} + 10" for x in names]


def reimer(n):
    names = [f"x{i}" for i in range(1, n + 1)]
    return names, ["-1" + "".join(f" {'-' if i % 2 else '+'} 2*{x}^{d}" for i, x in enumerate(names)) for d in range(2, n + 2)]


def quadrics(n):
    """As many dense polynomials of degree 2 as variables, with small numbers that a congruence chooses."""
    names = [f"x{i}" for i in range(1, n + 1)]
    monomials = ["*".join(pair) for pair in itertools.combinations_with_replacement(names, 2)] + names + ["1"]
    chosen = itertools.accumulate(itertools.repeat(1), lambda last, _: (48271 * last) % 2147483647)
    return names, [" + ".join(f"({next(chosen) % 19 - 9})*{monomial}" for monomial in monomials) for _ in names]


def quadrature(n):
    """Weights and places of the quadrature with n places that is exact up to the degree 2*n - 1."""
    weights, places = [f"w{i}" for i in range(1, n + 1)], [f"x{i}" for i in range(1, n + 1)]
    sums = (" + ".join(f"{w}*{x}^{d}" if d else w for w, x in zip(weights, places)) for d in range(2 * n))
    return [*weights, *places], [f"{d + 1}*({moment}) - {0 if d % 2 else 2}" for d, moment in enumerate(sums)]


def power_sums(n):
    names = [f"x{i}" for i in range(1, n + 1)]
    return names, [" + ".join(f"{x}^{d}" for x in names) + f" - {d}" for d in range(1, n + 1)]


def adjacent_minors(n):
    """The minors of two neighbouring rows and columns of a matrix of n rows."""
    name = lambda i, j: f"x{i + 1}{j + 1}"
    minors = [f"{name(i, j)}*{name(i + 1, j + 1)} - {name(i, j + 1)}*{name(i + 1, j)}" for i in range(n - 1) for j in range(n - 1)]
    return [name(i, j) for i in range(n) for j in range(n)], minors


def commuting(n):
    """The entries of the commutator of two matrices of n rows."""
    name = lambda letter, i, j: f"{letter}{i + 1}{j + 1}"
    product = lambda p, q, i, j: " + ".join(f"{name(p, i, k)}*{name(q, k, j)}" for k in range(n))
    places = list(itertools.product(range(n), repeat=2))
    return [name(p, i, j) for p in "xy" for i, j in places], [f"{product('x', 'y', i, j)} - ({product('y', 'x', i, j)})" for i, j in places]


def colours(edges, n):
    """Three colours, the roots of 1, for n points, two of them for the ends of each edge."""
    names = [f"x{i}" for i in range(n)]
    return names, [*(f"{x}^3 - 1" for x in names), *(f"{names[a]}^2 + {names[a]}*{names[b]} + {names[b]}^2" for a, b in edges)]


def reduced_cyclic(n):
    """Cyclic with one variable put to 1, and without the product."""
    names = [f"x{i}" for i in range(1, n)]
    around = ["1", *names]
    return names, [" + ".join("*".join(around[(i + j) % n] for j in range(d)) for i in range(n)) for d in range(1, n)]


def homogeneous_cyclic(n):
    """Cyclic with one more variable to the power n in place of 1."""
    names, sums = cyclic(n)
    return [*names, "h"], [*sums[:-1], sums[-1].replace(" - 1", f" - h^{n}")]


def reduced_economics(n):
    """Economics with u for the inverse of the last variable."""
    names = [f"x{i}" for i in range(1, n)]
    products = [" + ".join([names[k], *(f"{names[i]}*{names[i + k + 1]}" for i in range(n - 2 - k))]) for k in range(n - 1)]
    return [*names, "u"], [*(f"{product} - {k + 1}*u" for k, product in enumerate(products)), " + ".join(names) + " + 1"]


def chandrasekhar(n):
    """The H-equation at n places, with the parameter 1/2."""
    names = [f"h{i}" for i in range(1, n + 1)]
    lcm = math.lcm(*range(1, 2 * n))
    sums = (" + ".join(f"{lcm * k // (k + i)}*{x}" for i, x in enumerate(names[:-1], 1)) for k in range(1, n + 1))
    return names, [f"{4 * n * lcm}*{x} - {x}*({lcm} + {total}) - {4 * n * lcm}" for x, total in zip(names, sums)]


def minors(rows, columns):
    """The minors of two rows and two columns of a matrix."""
    name = lambda i, j: f"x{i + 1}{j + 1}"
    pairs = itertools.product(itertools.combinations(range(rows), 2), itertools.combinations(range(columns), 2))
    return [name(i, j) for i in range(rows) for j in range(columns)], [f"{name(a, c)}*{name(b, d)} - {name(a, d)}*{name(b, c)}" for (a, b), (c, d) in pairs]


def rational_curve(n):
    """The minors of two neighbouring rows of n + 1 coordinates: the curve of all powers up to n."""
    names = [f"x{i}" for i in range(n + 1)]
    return names, [f"{names[i]}*{names[j + 1]} - {names[i + 1]}*{names[j]}" for i, j in itertools.combinations(range(n), 2)]


def edges_of_polygon(n):
    """For each edge of a polygon the minor of the columns of its ends, in a matrix of two rows."""
    ends = [(i, (i + 1) % n) for i in range(n)]
    return [f"{letter}{i}" for letter in "xy" for i in range(n)], [f"x{i}*y{j} - x{j}*y{i}" for i, j in ends]


PETERSEN = [(i, (i + 1) % 5) for i in range(5)] + [(i, i + 5) for i in range(5)] + [(5 + i, 5 + (i + 2) % 5) for i in range(5)]

TRINKS = (
    "45*p + 35*s - 165*b - 36",
    "35*p + 40*z + 25*t - 27*s",
    "15*w + 25*p*s + 30*z - 18*t - 165*b^2",
    "-9*w + 15*p*t + 20*z*s",
    "w*p + 2*z*t - 11*b^3",
    "99*w - 11*s*b + 3*b^2",
)

CAPRASSE = (
    "y^2*z + 2*x*y*t - 2*x - z",
    "-x^3*z + 4*x*y^2*z + 4*x^2*y*t + 2*y^3*t + 4*x^2 - 10*y^2 + 4*x*z - 10*y*t + 2",
    "2*y*z*t + x*t^2 - x - 2*z",
    "-x*z^3 + 4*y*z^2*t + 4*x*z*t^2 + 2*y*t^3 + 4*x*z + 4*z^2 - 10*y*t - 10*t^2 + 2",
)

ARNBORG_LAZARD = (
    "x^2*y*z + x*y^2*z + x*y*z^2 + x*y*z + x*y + x*z + y*z",
    "x^2*y^2*z + x*y^2*z^2 + x^2*y*z + x*y*z + y*z + x + z",
    "x^2*y^2*z^2 + x^2*y^2*z + x*y^2*z + x*y*z + x*z + z + 1",
)

WEISPFENNING = ("y^4 + x*y^2*z + x^2 - 2*x*y + y^2 + z^2", "x*y^4 + y*z^4 - 2*x^2*y - 3", "-x^3*y^2 + x*y*z^3 + y^4 + x*y^2*z - 2*x*y")

LORENTZ = ("x*y - x*z - t + 1", "y*z - y*t - x + 1", "-x*z + z*t - y + 1", "x*t - y*t - z + 1")

LIU = ("y*z - y*t - x + a", "z*t - z*x - y + a", "t*x - y*t - z + a", "x*y - z*x - t + a")

BOON = (
    "s^2 + g^2 - 1",
    "t^2 + h^2 - 1",
    "5*p*g^3 + 5*q*h^3 - 6",
    "5*p*s^3 + 5*q*t^3 - 6",
    "10*p*g^2*s + 10*q*h^2*t - 7",
    "10*p*g*s^2 + 10*q*h*t^2 - 7",
)

ENNEPER = ("x - 3*u - 3*u*v^2 + u^3", "y - 3*v - 3*u^2*v + v^3", "z - 3*u^2 + 3*v^2")

MORA = ("x^5 - y*z^3*w", "x*y^3 - z^4", "x^4*z - y^4*w")

ARM = (
    "a^2 + b^2 - 1",
    "c^2 + d^2 - 1",
    "e^2 + f^2 - 1",
    "3*a + 2*c + e - 2",
    "3*b + 2*d + f - 3",
    "a*c + b*d - c*e - d*f",
)

EXTREMA = ("3*x^2 + 2*y*z - 2*x*l", "2*x*z - 2*y*l", "2*x*y - 2*z - 2*z*l", "x^2 + y^2 + z^2 - 1")

ROMAN = ("x - u*v", "y - u*w", "z - v*w", "u^2 + v^2 + w^2 - 1")

SYSTEMS = {
    **{f"cyclic-{n}": lambda n=n: cyclic(n) for n in (4, 5, 6)},
    **{f"katsura-{n}": lambda n=n: katsura(n) for n in (4, 5, 6, 7, 8)},
    **{f"eco-{n}": lambda n=n: economics(n) for n in (6, 7, 8)},
    **{f"noon-{n}": lambda n=n: noonburg(n) for n in (4, 5)},
    **{f"reimer-{n}": lambda n=n: reimer(n) for n in (4, 5)},
    "trinks": lambda: (list("wpztsb"), list(TRINKS)),
    "caprasse": lambda: (list("xyzt"), list(CAPRASSE)),
    "arnborg-lazard": lambda: (list("xyz"), list(ARNBORG_LAZARD)),
    "weispfenning": lambda: (list("xyz"), list(WEISPFENNING)),
    "lorentz": lambda: (list("xyzt"), list(LORENTZ)),
    "liu": lambda: (list("xyzta"), list(LIU)),
    "boon": lambda: (list("sgthpq"), list(BOON)),
    "mora-4": lambda: (list("xyzw"), list(MORA)),
    "enneper": lambda: (list("uvxyz"), list(ENNEPER)),
    "quadrics-5": lambda: quadrics(5),
    "quadrature-3": lambda: quadrature(3),
    "power sums-5": lambda: power_sums(5),
    "adjacent minors-4": lambda: adjacent_minors(4),
    "commuting-3": lambda: commuting(3),
    "colours of Petersen": lambda: colours(PETERSEN, 10),
    "reduced cyclic-5": lambda: reduced_cyclic(5),
    "homogeneous cyclic-5": lambda: homogeneous_cyclic(5),
    "reduced eco-7": lambda: reduced_economics(7),
    "chandrasekhar-4": lambda: chandrasekhar(4),
    "minors-3-4": lambda: minors(3, 4),
    "rational curve-6": lambda: rational_curve(6),
    "edges of a hexagon": lambda: edges_of_polygon(6),
    "arm": lambda: (list("abcdef"), list(ARM)),
    "extrema": lambda: (list("lxyz"), list(EXTREMA)),
    "roman surface": lambda: (list("uvwxyz"), list(ROMAN)),
}
