"""Products and inverses of the field of 65,536 words by plain shift and reduce.

Prints the rows of crates/decoding_cases/src/field_rows.rt: 256 pairs with their products, and 64 words with their inverses.
The words come from a linear congruential generator; the inverse is looked for among all words.
"""

MODULUS = 0x1100B


def product(a, b):
    """The carry-less product of a and b, and then the remainder after the modulus, bit by bit from the top."""
    whole = 0
    for i in range(16):
        if b >> i & 1:
            whole ^= a << i
    for i in range(31, 15, -1):
        if whole >> i & 1:
            whole ^= MODULUS << (i - 16)
    return whole


def words(seed):
    """Words from 0 to 65,535, one after another."""
    state = seed
    while True:
        state = (state * 1_103_515_245 + 12_345) % 2**31
        yield state >> 15


def inverse(a):
    """The word whose product with a is 1, looked for among all words."""
    return next(b for b in range(65536) if product(a, b) == 1)


def rows(table, per_line):
    for start in range(0, len(table), per_line):
        print("    " + " ".join(f"{entry}," for entry in table[start : start + per_line]))


def main():
    source = words(1)
    pairs = [(0, 0), (0, 1), (1, 0xFFFF), (0xFFFF, 0xFFFF), (0x8000, 0x8000), (2, 0x8000), (3, 3), (2, 0x8805)]
    while len(pairs) < 256:
        pairs.append((next(source), next(source)))
    print("// PRODUCTS")
    rows([f"({a}, {b}, {product(a, b)})" for a, b in pairs], 6)
    some = [1, 2, 3, 0x8000, 0xFFFF]
    while len(some) < 64:
        a = next(source)
        if a:
            some.append(a)
    print("// INVERSES")
    rows([f"({a}, {inverse(a)})" for a in some], 8)


main()
