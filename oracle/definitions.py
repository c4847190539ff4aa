"""The definitions of the paper's section Arithmetic.

They refuse nothing: the calls do that first. Each takes the parameter set p
and gives a new list or number. No lent buffer is touched here.
"""

from arith import PAPER, centred, inner


def is_key(p, key):
    """s0 is 1 and the absolute entries add up to at most L."""
    return key[0] == 1 and sum(abs(entry) for entry in key) <= p.L


def encryption(p, key, bit, mask, error, rules=PAPER):
    """Entry 0 is [b*q/2 - <s',a> + e]q, with s' the key without s0; the rest is a."""
    first = bit * p.half - inner(key[1:], mask) + error
    return [rules.reduction(first, p.q)] + list(mask)


def decryption(p, key, ciphertext, rules=PAPER):
    """d = [<s,c>]q; 1 if 4|d| > q, else 0."""
    d = centred(inner(key, ciphertext), p.q)
    return 1 if rules.reads_one(d, p.q) else 0


def signed_noise(p, key, ciphertext, bit):
    """[<s,c> - b*q/2]q, whose size is the true noise."""
    return centred(inner(key, ciphertext) - bit * p.half, p.q)


def true_noise(p, key, ciphertext, bit):
    """True noise of c for bit b: |[<s,c> - b*q/2]q|."""
    return abs(signed_noise(p, key, ciphertext, bit))


def multiplier(p, key, ciphertext, bit):
    """The whole number 2k+b, where <s,c> = k*q + b*q/2 + e."""
    return (inner(key, ciphertext) - signed_noise(p, key, ciphertext, bit)) // p.half


def xor_of(p, left, right, rules=PAPER):
    """Entry by entry [c+d]q."""
    return [rules.reduction(x + y, p.q) for x, y in zip(left, right)]


def not_of(p, ciphertext, rules=PAPER):
    """q/2 added to entry 0 and reduced; the rest stays."""
    return [rules.reduction(ciphertext[0] + p.half, p.q)] + list(ciphertext[1:])


def tensor(p, left, right, rules=PAPER):
    """Entry u*n+v is [round(2*cu*dv/q)]q."""
    return [
        rules.reduction(rules.rounding(2 * cu * dv, p.q), p.q)
        for cu in left
        for dv in right
    ]


def key_tensor(key):
    """su*sv at u*n+v, whole and not reduced."""
    return [su * sv for su in key for sv in key]


def row_of(p, matrix, i):
    """Row i of a matrix of n*n columns that lies row by row."""
    columns = p.n * p.n
    return matrix[i * columns : (i + 1) * columns]


def switching_rows(p, key, masks, errors):
    """The switching key, n rows of n*n entries, as one run row by row.

    Row 0 column j = u*n+v is [q*su*sv - <s',mask column j> + fj]Q. The lent
    masks are rows 1 to n-1, so mask row i lies at (i-1)*n*n.
    """
    mask_rows = [row_of(p, masks, i) for i in range(p.n - 1)]
    products = key_tensor(key)
    row_0 = []
    for j in range(p.n * p.n):
        mask_column = [row[j] for row in mask_rows]
        whole = p.q * products[j] - inner(key[1:], mask_column) + errors[j]
        row_0.append(centred(whole, p.Q))
    return row_0 + list(masks)


def switch(p, tensor_entries, switching_key, rules=PAPER):
    """Entry i is [round(S/q)]q, S the sum of tensor entry j times row i column j."""
    result = []
    for i in range(p.n):
        row = row_of(p, switching_key, i)
        whole = rules.switch_entry(tensor_entries, row, p.q, rules.rounding)
        result.append(rules.reduction(whole, p.q))
    return result


def and_of(p, left, right, switching_key, rules=PAPER):
    """Tensor, then switch."""
    return switch(p, tensor(p, left, right, rules), switching_key, rules)


def xor_bound(b1, b2):
    """The bound of an XOR."""
    return b1 + b2
