"""Random error patterns in one column, with the syndromes that plain sums give.

Prints crates/decoding_cases/src/column_rows.rt: for P = 4, 8, 16 and 32 rows of
    c, number of errors (65,535: no list of at most P / 2 errors has these syndromes), P / 2 places, P / 2 flips, P syndromes.
Half of the patterns have at most P / 2 errors, and half have one more. That no list within the radius has the
syndromes of the latter is decided by solving linear equations for each number of errors, and not by registers.
"""

import random

MODULUS = 0x1100B
NONE = 65535
LARGEST = 44548
ROWS = 52

EXP = [1]
for _ in range(65534):
    twice = EXP[-1] << 1
    EXP.append(twice ^ MODULUS if twice >> 16 else twice)
LOG = {word: n for n, word in enumerate(EXP)}


def times(a, b):
    return EXP[(LOG[a] + LOG[b]) % 65535] if a and b else 0


def over(a, b):
    return EXP[(LOG[a] - LOG[b]) % 65535] if a else 0


def syndromes(parity, c, errors):
    """The exclusive or of flip * alpha^(m * (c - 1 - k)) over the errors, for each m."""
    answer = []
    for m in range(parity):
        total = 0
        for k, flip in errors:
            total ^= times(flip, EXP[m * (c - 1 - k) % 65535])
        answer.append(total)
    return answer


def solve(rows):
    """The solution of square linear equations, each row with its right side last, or None where they are singular."""
    size = len(rows)
    rows = [list(row) for row in rows]
    for i in range(size):
        pivot = next((j for j in range(i, size) if rows[j][i]), None)
        if pivot is None:
            return None
        rows[i], rows[pivot] = rows[pivot], rows[i]
        rows[i] = [over(entry, rows[i][i]) for entry in rows[i]]
        for j in range(size):
            if j != i and rows[j][i]:
                factor = rows[j][i]
                rows[j] = [a ^ times(factor, b) for a, b in zip(rows[j], rows[i])]
    return [row[-1] for row in rows]


def errors_within(parity, c, words):
    """The only list of at most parity / 2 errors with these syndromes, or None: a matrix for each number of errors."""
    for count in range(parity // 2 + 1):
        # the locators X are the roots of y^count + a_(count-1) y^(count-1) + .. + a_0, which every window of words meets
        equations = [words[i : i + count] + [words[i + count]] for i in range(count)]
        polynomial = solve(equations)
        if polynomial is None:
            continue
        places = []
        for k in range(c):
            x = EXP[(c - 1 - k) % 65535]
            value, power = 0, 1
            for a in polynomial:
                value ^= times(a, power)
                power = times(power, x)
            if value == power:
                places.append(k)
        if len(places) != count:
            continue
        flips = solve([[EXP[m * (c - 1 - k) % 65535] for k in places] + [words[m]] for m in range(count)])
        if flips is None or not all(flips):
            continue
        errors = list(zip(places, flips))
        if syndromes(parity, c, errors) == words:
            return errors
    return None


def pattern(source, parity, count):
    c = source.choice([LARGEST, 9529, source.randint(max(count, 1), 60), source.randint(max(count, 1), LARGEST)])
    c = max(c, count, 1)
    places = sorted(source.sample(range(c), count))
    return c, [(k, source.randint(1, 65535)) for k in places]


def main():
    print("// Error patterns in one column from the plain sums of scripts/column_table.py.")
    for parity in (4, 8, 16, 32):
        source = random.Random(parity)
        half = parity // 2
        table = []
        while len(table) < ROWS:
            inside = len(table) % 2 == 0
            c, errors = pattern(source, parity, source.randint(half // 2, half) if inside else half + 1)
            words = syndromes(parity, c, errors)
            if not inside:
                if errors_within(parity, c, words) is not None:
                    continue
                errors = []
            padding = [0] * (half - len(errors))
            row = [c, len(errors) if inside else NONE]
            row += [k for k, _ in errors] + padding + [flip for _, flip in errors] + padding + words
            table.append(row)
        print()
        print(f"/// Rows for `P = {parity}`: `c`, the number of errors (65,535: no list), places, flips, syndromes.")
        print(f"pub const ROWS_{parity}: [[u16; {2 + 2 * parity}]; {ROWS}] = [")
        for row in table:
            print("    [" + ", ".join(map(str, row)) + "],")
        print("];")


if __name__ == "__main__":
    main()
