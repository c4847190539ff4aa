"""Random batches of calls on sets, keys and ciphertexts, valid and damaged.

A call is first made so that no refusal applies, with numbers at or near the ends of
their ranges. Then it is mostly damaged: once for one refusal number that the call can
give, sometimes for a second one too. Numbers at the ends of their widths are
among the damages, and so are lengths that are one off.
"""

import engine
from engine import HOUSE_SHEETS, Params, centred, inner, largest_that_fits
from replay_format import (AND, CHECK_BENCH_KEY, CHECK_FILE, CHECK_KEY, DECRYPT, ENCRYPT, EVALUATE,
                           EVALUATE_GATES, MAKE, MAKE_BENCH_KEY, MAKE_SWITCHING_KEY, NOT, PLAN,
                           PLAN_FILE, PLAN_GATES, PRINT_FILE, SHEET, XOR)

LEAST_32, MOST_32 = -(2**31), 2**31 - 1
LEAST_64, MOST_64 = -(2**63), 2**63 - 1

# Four times each of these does not fit 32 bits. Cut there, three of them give 0.
WRAPPING = (2**30, 2**31, 3 * 2**30, 2**32 - 1)

MODULI = (16, 18, 22, 100, 1022, 65534, 65536, 262144, 1048572, 1048574, 1048574, 1048576)

# The refusal numbers that each call can give.
REFUSALS = {
    MAKE: (1,), SHEET: (1,), CHECK_KEY: (1, 3, 4), MAKE_SWITCHING_KEY: (1, 3, 4, 6, 7),
    CHECK_BENCH_KEY: (3, 4, 6, 7), MAKE_BENCH_KEY: (3, 4, 6, 7),
    ENCRYPT: (1, 3, 4, 5, 6, 7), DECRYPT: (1, 3, 4, 6), XOR: (1, 3, 6, 8, 10),
    NOT: (1, 3, 6, 8), AND: (1, 3, 6, 8, 10), PLAN: (1, 2, 3, 8, 9, 10),
    EVALUATE: (1, 2, 3, 6, 8, 9, 10), CHECK_FILE: (1, 2, 9, 10, 11, 12),
    PLAN_FILE: (1, 2, 3, 9, 10, 11, 12), PRINT_FILE: (3,),
    PLAN_GATES: (1, 2, 3, 8, 9, 10), EVALUATE_GATES: (1, 2, 3, 6, 8, 9, 10),
}

# Where a call's fields have their keys, and their entries modulo q and modulo Q.
KEY_AT = {CHECK_KEY: 1, MAKE_SWITCHING_KEY: 1, CHECK_BENCH_KEY: 0, MAKE_BENCH_KEY: 0,
          ENCRYPT: 1, DECRYPT: 1}
ENTRIES_AT = {ENCRYPT: (3,), DECRYPT: (2,), XOR: (1, 3), NOT: (1,), AND: (1, 3)}
BIG_ENTRIES_AT = {MAKE_SWITCHING_KEY: (2,), CHECK_BENCH_KEY: (1,), MAKE_BENCH_KEY: (1,), AND: (5,)}
ERRORS_AT = {MAKE_SWITCHING_KEY: 3, CHECK_BENCH_KEY: 2, MAKE_BENCH_KEY: 2}
BOUNDS_AT = {XOR: (2, 4), NOT: (2,), AND: (2, 4)}


class Sizes:
    """How large n may be: mostly small, seldom large, and seldomest the largest."""

    def __init__(self, cheap, large, largest, seldom):
        self.cheap = cheap      # for calls whose buffers have n entries
        self.large = large      # for calls whose buffers have n^3 entries, one time in 20
        self.largest = largest  # for these too, one time in `seldom`
        self.seldom = seldom

    def draw(self, rng, heavy):
        """An n, for a call with n^3 entries or for another."""
        if not heavy:
            return rng.choice((2, 3, 4, 5, 8, 16, rng.randint(2, self.cheap)))
        if rng.randrange(self.seldom) == 0:
            return self.largest
        if rng.randrange(20) == 0:
            return rng.choice((self.large, rng.randint(9, self.large)))
        return rng.choice((2, 2, 3, 3, 4, 4, 5, 6, 7, 8))


FULL = Sizes(64, 16, 64, 400)
SMALL = Sizes(16, 9, 16, 90)


def draw_set(rng, n):
    """A parameter set in its ranges: a house sheet, or any, often at its limits."""
    sheets = [p for p in HOUSE_SHEETS if p.n == n]
    if sheets and rng.randrange(3) == 0:
        return sheets[0]
    q = rng.choice(MODULI + (2 * rng.randint(8, 524288),) * 4)
    limit = (q - 1) // 4
    return Params(
        n, q, rng.choice((1, 2, rng.randint(1, 2 * n), rng.randint(1, 4096), 4096)),
        rng.choice((0, 1, limit, rng.randint(0, limit))),
        rng.choice((0, 1, rng.randint(0, 65535), 65535)),
    )


def quiet_set(rng, n):
    """A parameter set on which some AND fits: limits are lowered until one does."""
    p = draw_set(rng, n)
    while not engine.fits_budget(p, engine.and_bound(p, 0, 0)):
        p = p._replace(L=(p.L + 1) // 2, F=p.F // 2)
    return p


def draw_key(rng, p):
    """A key whose sizes add up to at most L, half of the time to L."""
    key = [1] + [0] * (p.n - 1)
    left = p.L - 1 if rng.randrange(2) else rng.randint(0, p.L - 1)
    while left:
        size = rng.choice((1, left, rng.randint(1, left)))
        i = rng.randrange(1, p.n)
        key[i] += size if key[i] > 0 or (key[i] == 0 and rng.randrange(2)) else -size
        left -= size
    return key


def draw_entries(rng, modulus, count):
    """Numbers in -modulus/2 to modulus/2-1: all at an end, near the ends, or anywhere."""
    half = modulus // 2
    if rng.randrange(6) == 0:
        return [rng.choice((-half, half - 1))] * count
    ends = (-half, half - 1, 0, -half + 1, -1)
    return [rng.choice(ends) if rng.randrange(2) else rng.randint(-half, half - 1)
            for _ in range(count)]


def draw_errors(rng, limit, count):
    """Numbers of size at most the limit, often at it."""
    return [rng.choice((-limit, limit, 0, rng.randint(-limit, limit))) for _ in range(count)]


def draw_found(rng, count):
    """What a call finds in a buffer that it is to write: anything."""
    kind = rng.randrange(4)
    if kind == 0:
        return [0] * count
    if kind == 1:
        return [rng.choice((LEAST_64, MOST_64))] * count
    return [rng.choice((LEAST_64, MOST_64, -1, rng.randint(-9, 9), rng.randint(LEAST_64, MOST_64)))
            for _ in range(count)]


def draw_bound(rng, most):
    """A bound of at most `most`, often that."""
    return rng.choice((0, most, max(most - 1, 0), rng.randint(0, most)))


def near_a_quarter(rng, p, key):
    """A ciphertext whose <s,c> is at or near a quarter of q, or at the end of its range."""
    quarter = p.q // 4
    d = rng.choice((1, -1)) * rng.choice((quarter, quarter + 1, quarter - 1, p.q // 2, 0))
    rest = draw_entries(rng, p.q, p.n - 1)
    return [centred(d - inner(key[1:], rest), p.q)] + rest


def and_bounds(rng, p, over=False):
    """Two bounds whose AND fits, often just so, or one that just does not."""
    def fits(b):
        return engine.fits_budget(p, engine.and_bound(p, first, b))
    most = largest_that_fits(p)
    first = 0
    if rng.randrange(2):
        first = rng.choice((rng.randint(0, most), rng.randint(0, most) // (4 * p.L)))
        first = first if fits(0) else 0
    low, high = 0, most + 1  # fits(low), or nothing does; never fits(high)
    while high - low > 1:
        middle = (low + high) // 2
        low, high = (middle, high) if fits(middle) else (low, middle)
    if over:
        return [first, high] if high <= most else [most, most]
    second = draw_bound(rng, low)
    return rng.choice(([first, second], [second, first]))


def make_wide_and(rng, n):
    """An AND whose sums pass 2^63: every product of a row has one sign.

    The left ciphertext is -q/2 all along, so that a tensor entry is -q/2 or near q/2.
    """
    q = rng.choice((1048574, 1048574, 1048572, 1048576))
    p = Params(n, q, 1, 0, 0)
    half, big = q // 2, q * q // 2
    spread = rng.choice((0, 0, 1, 1000))
    right = [rng.choice((-half, -half + rng.randint(0, spread), half - 1 - rng.randint(0, spread)))
             for _ in range(n)]
    left = [-half] * n
    tensor = engine.tensor(p, left, right)
    key = []
    for sign in [rng.choice((1, -1)) for _ in range(n)]:
        for t in tensor:
            step = rng.randint(0, spread)
            key.append(big - 1 - step if (t < 0) == (sign < 0) else -big + step)
    bounds = and_bounds(rng, p)
    return AND, [p, left, bounds[0], right, bounds[1], key,
                 draw_found(rng, n * n), draw_found(rng, n)]


def make_set_call(rng, number):
    """A call of the maker or of a sheet."""
    if number == MAKE:
        return number, [draw_set(rng, rng.choice((2, 1024, rng.randint(2, 1024))))]
    return number, [rng.randrange(6)]


def make_key_call(rng, number, p):
    """A call on a key: all but encryption and decryption."""
    key = draw_key(rng, p)
    if number == CHECK_KEY:
        return number, [p, key]
    square = p.n * p.n
    masks = draw_entries(rng, p.Q, (p.n - 1) * square)
    errors = draw_errors(rng, p.F, square)
    if number == MAKE_SWITCHING_KEY:
        return number, [p, key, masks, errors, draw_found(rng, p.n * square)]
    return number, [key, masks, errors]


def make_cipher_call(rng, number, p):
    """An encryption or a decryption."""
    key = draw_key(rng, p)
    if number == ENCRYPT:
        return number, [p, key, rng.randrange(2), draw_entries(rng, p.q, p.n - 1),
                        draw_errors(rng, p.E, 1)[0], draw_found(rng, p.n)]
    entries = near_a_quarter(rng, p, key) if rng.randrange(2) else draw_entries(rng, p.q, p.n)
    return number, [p, key, entries]


def make_gate_call(rng, number, p):
    """A gate."""
    c, d = (draw_entries(rng, p.q, p.n) for _ in range(2))
    out = draw_found(rng, p.n)
    most = largest_that_fits(p)
    if number == NOT:
        return number, [p, c, draw_bound(rng, most), out]
    if number == XOR:
        first = draw_bound(rng, most)
        return number, [p, c, first, d, draw_bound(rng, most - first), out]
    first, second = and_bounds(rng, p)
    key = draw_entries(rng, p.Q, p.n**3)
    return number, [p, c, first, d, second, key, draw_found(rng, p.n * p.n), out]


def make_valid(rng, number, sizes):
    """A call to which no refusal applies."""
    if number in (MAKE, SHEET):
        return make_set_call(rng, number)
    if number in (CHECK_BENCH_KEY, MAKE_BENCH_KEY):
        return make_key_call(rng, number, HOUSE_SHEETS[1])
    if number == AND and rng.randrange(4) == 0:
        return make_wide_and(rng, rng.choice((6, 6, 7, 8, min(12, sizes.large))))
    n = sizes.draw(rng, number in (MAKE_SWITCHING_KEY, AND))
    if number == AND:
        return make_gate_call(rng, number, quiet_set(rng, n))
    p = draw_set(rng, n)
    if number in (ENCRYPT, DECRYPT):
        return make_cipher_call(rng, number, p)
    make = make_key_call if number in (CHECK_KEY, MAKE_SWITCHING_KEY) else make_gate_call
    return make(rng, number, p)


def set_of(call):
    """The parameter set of a call, sheet 1 for the bench key."""
    first = call[1][0]
    return first if isinstance(first, Params) else HOUSE_SHEETS[1]


def put(rng, buffer, values):
    """Puts one of the values at some entry: the first, the last or any."""
    if buffer:
        i = rng.choice((0, len(buffer) - 1, rng.randrange(len(buffer))))
        buffer[i] = rng.choice(values)


def damage_set(rng, call):
    """1: one parameter, or the sheet number, outside its range."""
    number, fields = call
    if number == SHEET:
        fields[0] = rng.choice((6, 7, 255, 256, 2**16, 2**31, 2**32 - 1, rng.randint(6, 2**32 - 1)))
        return
    p = fields[0]
    over = (p.q + 3) // 4
    fields[0] = p._replace(**rng.choice((
        {"n": rng.choice((0, 1, 1025, 2**16 + p.n, 2**32 - 1))},
        {"q": rng.choice((0, 2, 14, 15, 17, p.q + 1, 1048575, 1048577, 1048578, 2**31, 2**32 - 2,
                          2**32 - 1))},
        {"L": rng.choice((0, 4097, 2**31, 2**32 - 1))},
        {"E": rng.choice((over, over + 1) + WRAPPING)},
        {"F": rng.choice((65536, 2**31, 2**32 - 1))},
    )))


def damage_length(rng, call):
    """3: a buffer one short, one long, empty, or of some other length."""
    buffers = [i for i, field in enumerate(call[1]) if isinstance(field, list)]
    i = rng.choice(buffers)
    buffer = call[1][i]
    more = rng.choice((0, 1, -1))
    call[1][i] = rng.choice((buffer[:-1], buffer + [more], [], buffer[: len(buffer) // 2]))


def damage_key(rng, call):
    """4: s0 is not 1, or the sum exceeds L, by one or by so much that 32 bits would wrap."""
    key = call[1][KEY_AT[call[0]]]
    if not key:
        return
    if rng.randrange(3) == 0 or len(key) < 2:
        key[0] = rng.choice((0, -1, 2, LEAST_32, MOST_32, 2**16 + 1))
        return
    over = set_of(call).L + 1 - sum(abs(x) for x in key)
    i = rng.randrange(1, len(key))
    if rng.randrange(2) and 0 < over <= 4097:
        key[i] += over if key[i] >= 0 else -over
        return
    key[i] = rng.choice((LEAST_32, LEAST_32 + 1, MOST_32))
    key[-1] = rng.choice((key[-1], LEAST_32, MOST_32))


def damage_bit(rng, call):
    """5: the bit is neither 0 nor 1."""
    call[1][2] = rng.choice((2, 3, 256, 2**16, 2**31, 2**32 - 1))


def damage_entries(rng, call):
    """6: an entry just outside its range, or at the end of its width."""
    number, fields = call
    p = set_of(call)
    places = [(i, p.q) for i in ENTRIES_AT.get(number, ())]
    places += [(i, p.Q) for i in BIG_ENTRIES_AT.get(number, ())]
    i, modulus = rng.choice(places)
    half = modulus // 2
    # Cut to 32 bits the last two are 0; modulo Q they can be in range.
    cut = (2**32, -(2**32)) if half <= 2**32 else ()
    put(rng, fields[i], (half, -half - 1, modulus, -modulus, LEAST_64, MOST_64) + cut)


def damage_errors(rng, call):
    """7: an error one over its limit, or at the end of its width."""
    number, fields = call
    p = set_of(call)
    if number == ENCRYPT:
        fields[4] = rng.choice((p.E + 1, -p.E - 1, LEAST_64, MOST_64, 2**32, -(2**32), 2**63 - 2**32))
        return
    put(rng, fields[ERRORS_AT[number]],
        (p.F + 1, -p.F - 1, LEAST_64, MOST_64, 2**32, -(2**32), -(2**63) + 2**32))


def damage_bound(rng, call):
    """8: a bound at a quarter of q, or so large that four times it does not fit 32 bits."""
    over = (set_of(call).q + 3) // 4
    call[1][rng.choice(BOUNDS_AT[call[0]])] = rng.choice((over, over + 1) + WRAPPING)


def damage_budget(rng, call):
    """10: bounds that fit, with a result's that does not, often just so."""
    number, fields = call
    p = set_of(call)
    if number == AND:
        fields[2], fields[4] = and_bounds(rng, p, over=True)
        return
    most = largest_that_fits(p)
    first = rng.randint(1, most)
    fields[2], fields[4] = first, rng.choice((most, most + 1 - first))


DAMAGES = {
    1: damage_set, 3: damage_length, 4: damage_key, 5: damage_bit, 6: damage_entries,
    7: damage_errors, 8: damage_bound, 10: damage_budget,
}


def make_call(rng, sizes):
    """A call of any of these kinds: six times in ten damaged, one time in ten twice."""
    number = rng.randrange(MAKE, AND + 1)
    call = make_valid(rng, number, sizes)
    damages = rng.choice((0, 0, 0, 0, 1, 1, 1, 1, 1, 2))
    chosen = rng.sample(REFUSALS[number], min(damages, len(REFUSALS[number])))
    for refusal in sorted(chosen, reverse=True):
        DAMAGES[refusal](rng, call)
    return call


def make_batch(rng, count, sizes):
    """So many calls, one after the other."""
    for _ in range(count):
        yield make_call(rng, sizes)


def unreadable_texts():
    """Texts that end with something that is no call, after one that is."""
    word = "3 2 16 2 1 1 "
    plan, whole = "12 2 16 2 1 1 1 ", "13 2 16 2 1 1 1 1 2 1 0 1 0 "
    gates, records = "17 2 16 2 1 1 1 ", "18 2 16 2 1 1 1 3 2 0 0 "
    return [
        "2 1\n" + text for text in (
            "", " \t\r\n", "0", "12", "13", "14", "15", "16", "17", "18", "19", "19 0",
            "-1 0", "x", "2 1x", "2 +1", "2 1.0", "2 -", "2 --1", "2 4294967296",
            "2 -1", "1 2 16 2 1", "1 2 16 2 1 9223372036854775808", word, word + "2 1",
            word + "1 2147483648", word + "1 -2147483649", word + "-1", word + "129 " + "1 " * 129,
            "10 2 16 2 1 1 2 0 9223372036854775808 0 2 0 0", "10 2 16 2 1 1 129 " + "0 " * 129 + "0 2 0 0",
            "11 2 16 2 1 1 2 0 0 0 2 0 0 0 8 0 0 0 0 0 0 0 0 4161 " + "0 " * 4161 + "2 0 0",
            "11 2 16 2 1 1 2 0 0 0 2 0 0 0 262401 " + "0 " * 262401 + "4 0 0 0 0 2 0 0",
            plan + "1 2 1 0 1 0 2 0", plan + "1 2 1 -1 1 0 2 0 0", plan + "1 4294967296 1 0 1 0 2 0 0",
            plan + "5201 " + "0 " * 5201 + "1 0 1 0 2 0 0", plan + "1 2 1 0 1 0 5201 " + "0 " * 5201,
            whole + "4 0 0 0 0 2 0 0 8 0 0 0 0 0 0 0 0 4 0 0 0",
            whole + "4 0 0 0 9223372036854775808 2 0 0 8 0 0 0 0 0 0 0 0 4 0 0 0 0",
            whole + "4 0 0 0 0 2 0 -1 8 0 0 0 0 0 0 0 0 4 0 0 0 0",
            whole + "4 0 0 0 0 2 0 0 8 0 0 0 0 0 0 0 0 4161 " + "0 " * 4161,
            whole + "262401 " + "0 " * 262401 + "2 0 0 8 0 0 0 0 0 0 0 0 4 0 0 0 0",
            "14 1 256", "14 1 -1", "14 2 0", "14 20601 " + "0 " * 20601, "15 1 71", "15 1 71 1 256",
            "15 0 20601 " + "0 " * 20601, "16 1 71", "16 1 71 2 0 -1", "16 0 81001 " + "0 " * 81001,
            gates + "3 2 0 0 2 0", gates + "3 2 0 -1 2 0 0", gates + "3 4294967296 0 0 2 0 0",
            gates + "15601 " + "0 " * 15601 + "2 0 0", gates + "3 2 0 0 5201 " + "0 " * 5201,
            records + "4 0 0 0 0 2 0 0 8 0 0 0 0 0 0 0 0 4 0 0 0",
            records + "4 0 0 0 9223372036854775808 2 0 0 8 0 0 0 0 0 0 0 0 4 0 0 0 0",
            records + "4 0 0 0 0 2 0 -1 8 0 0 0 0 0 0 0 0 4 0 0 0 0",
            records + "262401 " + "0 " * 262401 + "2 0 0 8 0 0 0 0 0 0 0 0 4 0 0 0 0",
        )
    ]
