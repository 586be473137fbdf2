#!/usr/bin/env python3
"""Prints the samples of operators at the corners of their shapes, which are crates/shape_rules/proofs/Corners.antt.

It knows nothing of the crates: shapes are those of the Amaranth guide ("Operators"), integers are Python's. A row has
the operator, the left shape and integer, the right ones, the shape of the result, the shape of the work, and the
result. At the end stand the shapes at which an operator stops.
"""

SHAPES = [(w, s) for w in (0, 1, 127, 128) for s in (False, True) if w or not s]
UNARY = ("Neg", "Abs", "Not", "Any", "All", "Parity")
COMPARISONS = ("Eq", "Ne", "Lt", "Le", "Gt", "Ge")
OPERATORS = (
    "Add Sub Neg Mul Div Mod Abs Not And Or Xor Eq Ne Lt Le Gt Ge Any All Parity Shl Shr".split()
)


def least(shape):
    return -(2 ** (shape[0] - 1)) if shape[1] else 0


def greatest(shape):
    return 2 ** (shape[0] - 1) - 1 if shape[1] else 2 ** shape[0] - 1


def corners(shape):
    """0, 1, -1, the least and the greatest integer, those that the shape holds."""
    low, high = least(shape), greatest(shape)
    return sorted({v for v in (0, 1, -1, low, high) if low <= v <= high})


def holding(*shapes):
    """The least shape that holds all of these."""
    signed = any(s for _, s in shapes)
    return (max(w + (signed and not s) for w, s in shapes), signed)


def result_shape(op, a, b):
    c, signed = holding(a, b)
    if op == "Add":
        return (c + 1, signed)
    if op == "Sub":
        return (c + 1, True)
    if op == "Neg":
        return (a[0] + 1, True)
    if op == "Mul":
        return (a[0] + b[0], signed)
    if op == "Div":
        return (a[0] + b[1], signed)
    if op == "Mod":
        return b
    if op == "Abs":
        return (a[0], False)
    if op in ("Not", "Shr"):
        return a
    if op in ("And", "Or", "Xor"):
        return (c, signed)
    if op == "Shl":
        return (a[0] + 2 ** b[0] - 1, a[1])
    return (1, False)


def work_shape(op, a, b):
    if op in COMPARISONS:
        return holding(a, b)
    operands = (a,) if op in UNARY else (a, b)
    return holding(*operands, result_shape(op, a, b))


def integer(op, a, x, b, y):
    ones = 2 ** a[0] - 1
    return int({
        "Add": lambda: x + y,
        "Sub": lambda: x - y,
        "Neg": lambda: -x,
        "Mul": lambda: x * y,
        "Div": lambda: x // y if y else 0,
        "Mod": lambda: x % y if y else 0,
        "Abs": lambda: abs(x),
        "Not": lambda: ~x if a[1] else ones - x,
        "And": lambda: x & y,
        "Or": lambda: x | y,
        "Xor": lambda: x ^ y,
        "Eq": lambda: x == y,
        "Ne": lambda: x != y,
        "Lt": lambda: x < y,
        "Le": lambda: x <= y,
        "Gt": lambda: x > y,
        "Ge": lambda: x >= y,
        "Any": lambda: x != 0,
        "All": lambda: x & ones == ones,
        "Parity": lambda: bin(x & ones).count("1") % 2,
        "Shl": lambda: x << y,
        "Shr": lambda: x >> min(y, 1000),
    }[op]())


def stop(op, a, b):
    if op in ("Shl", "Shr") and b[1]:
        return "BadOperand"
    if max(result_shape(op, a, b)[0], work_shape(op, a, b)[0]) > 128:
        return "Width"
    return None


def rows(op):
    """So many rows that each corner of each shape stands once on each side, where the operator takes it."""
    rights = [(0, False)] if op in UNARY else SHAPES
    taken = [(a, b) for a in SHAPES for b in rights if stop(op, a, b) is None]
    cases = [(a, x, b, y) for a, b in taken for x in corners(a) for y in corners(b)]
    # extremes first, so that they meet
    cases.sort(key=lambda c: -abs(c[1]) - abs(c[3]))
    seen = set()
    for new in (2, 1):
        for a, x, b, y in cases:
            sides = {("left", a, x), ("right", b, y)}
            if len(sides - seen) >= new:
                seen |= sides
                yield a, x, b, y


def stops(op):
    """The shapes at which the operator stops, but for those that are only wider than others."""
    rights = [(0, False)] if op in UNARY else SHAPES
    all_stops = [(a, b) for a in SHAPES for b in rights if stop(op, a, b)]
    for a, b in all_stops:
        wider = [
            (c, d)
            for c, d in all_stops
            if (c, d) != (a, b) and c[1] == a[1] and d[1] == b[1] and c[0] <= a[0] and d[0] <= b[0]
        ]
        if not wider:
            yield a, b


HEAD = """-- Operators at the corners of their shapes, as bench/operator_corners.py prints them: no bits, 1, 127 and 128 bits, and 0, 1, -1,
-- the least and the greatest integer. Shapes are those of the Amaranth guide, integers Python's.
use Rattle.std.proofs.Common.{◌≡◌, ◌∙◌, refl, sym, ℕ, ◌/◌, ◌%◌, ◌^◌, ◌<◌, ◌≤◌, ◌==◌, ◌&&◌, Bool, true, not, nat_lt, if◌then◌else◌, ℤ, pos, negsuc, neg_ℤ, List, [], ◌∷◌, arith}
use Rattle.std.proofs.Math.Nat.{pow-le-pow_right, div-eq_of_lt}
use Rattle.std.specs.List.{list_all}
use Rattle.std.specs.Ordering.{int_eq}
use Rattle.amh_bits.specs.Integers.{IsKept}
use Rattle.amh_bits.specs.Patterns.{pattern}
use Rattle.amh_bits.proofs.Wraps.{pattern_below}
use Rattle.amh_bits.proofs.Reductions.{ones_below, count_ones_bits}
use Rattle.shape_rules.specs.Forms.{Form, unsigned, signed_form}
use Rattle.shape_rules.specs.Operators.{form_of, work_form, integer_of}
use Rattle.shape_rules.specs.Stops.{is_bad_operand, widest}
use Rattle.shape_rules.specs.declared.op.Op.{Op}
use Rattle.shape_rules.specs.declared.op.Op.TheVariants.{Add, Sub, Neg, Mul, Div, Mod, Abs, Not, And, Or, Xor, Eq, Ne, Lt, Le, Gt, Ge, Any, All, Parity, Shl, Shr}

abbrev u : ℕ → Form
u width = unsigned width

abbrev s : ℕ → Form
s width = signed_form width

abbrev minus : ℕ → ℤ
minus n = neg_ℤ (pos n)

same_form : Form → Form → Bool
same_form f g = (f.width == g.width) && (if f.signed then g.signed else not g.signed)

-- operands of these shapes are taken
is_taken : Op → Form → Form → Bool
is_taken op a b = not (is_bad_operand op b) && not (nat_lt 128 (widest op a b))

-- the operator is taken, and has this shape, this shape of its work and this integer
gives : Op → Form → ℤ → Form → ℤ → Form → Form → ℤ → Bool
gives op a x b y of work n = is_taken op a b && same_form (form_of op a b) of && same_form (work_form op a b) work && int_eq (integer_of op a x b y) n

-- the bits of a number, counted one by one, which computes where `count_ones` does not
abbrev parity_of : Form → ℤ → ℤ
parity_of a x = pos (ones_below a.width (pattern a.width x) % 2)

pub counted : (a b : Form) (x y : ℤ) → integer_of Parity a x b y ≡ parity_of a x
counted a b x y = rw (count_ones_bits a.width (pattern a.width x) (pattern_below a.width x)) refl

gives_parity : Form → ℤ → Form → Form → ℤ → Bool
gives_parity a x of work n = is_taken Parity a a && same_form (form_of Parity a a) of && same_form (work_form Parity a a) work && int_eq (parity_of a x) n

-- shifts by a signed amount, and those that are not but too wide
is_bad : Op → Form → Form → Bool
is_bad op a b = is_bad_operand op b

is_too_wide : Op → Form → Form → Bool
is_too_wide op a b = not (is_bad_operand op b) && nat_lt 128 (widest op a b)

abbrev all : List Bool → Bool
all tests = list_all (λ holds. holds) tests
"""

FAR = """
nothing_left : (m n : ℕ) → m < 2 ^ 128 → 128 ≤ n → m / 2 ^ n ≡ m / 2 ^ 128
nothing_left m n below far =
    let more : 2 ^ 128 ≤ 2 ^ n = pow-le-pow_right {n = 2} (omega arith) far in
    div-eq_of_lt (omega (arith, below, more)) ∙ sym (div-eq_of_lt below)

-- an amount from 128 on is as one of 128, as which it stands above
pub far_amounts : (a b : Form) (x : ℤ) (n : ℕ) → IsKept x → 128 ≤ n → integer_of Shr a x b (pos n) ≡ integer_of Shr a x b (pos 128)
far_amounts a b (pos m) n kept far = let e : m / 2 ^ n ≡ m / 2 ^ 128 = nothing_left m n kept far in cc
far_amounts a b (negsuc m) n kept far = let e : m / 2 ^ n ≡ m / 2 ^ 128 = nothing_left m n (omega (arith, kept)) far in cc
"""


def form(shape):
    return f"({'s' if shape[1] else 'u'} {shape[0]})"


def number(n):
    return f"(minus {-n})" if n < 0 else f"(pos {n})"


def amount(op, y):
    """A far amount stands as 128, by the law behind the table."""
    return min(y, 128) if op == "Shr" else y


def corner(op, a, x, b, y):
    result, shape = integer(op, a, x, b, y), result_shape(op, a, b)
    assert least(shape) <= result <= greatest(shape), (op, a, x, b, y)
    given = (form(a), number(x)) if op == "Parity" else (op, form(a), number(x), form(b), number(amount(op, y)))
    words = *given, form(shape), form(work_shape(op, a, b)), number(result)
    return f"{'gives_parity' if op == 'Parity' else 'gives'} {' '.join(words)}"


def print_samples(name, tests):
    uses = sorted({test.split()[0] for test in tests})
    opened = " ".join(uses + (["is_taken", "same_form"] if uses[0].startswith("gives") else []))
    print()
    print(f"{name} : all (")
    print(" ∷\n".join(f"    {test}" for test in tests) + " ∷ []) ≡ true")
    print(f"unfolding {opened}")
    print(f"{name} = refl")


def main():
    print(HEAD, end="")
    for op in OPERATORS:
        print_samples(f"{op.lower()}_corners", list(dict.fromkeys(corner(op, *row) for row in rows(op))))
    print(FAR, end="")
    tests = {"BadOperand": "is_bad", "Width": "is_too_wide"}
    print_samples("stops", [f"{tests[stop(op, a, b)]} {op} {form(a)} {form(b)}" for op in OPERATORS for a, b in stops(op)])


if __name__ == "__main__":
    main()
