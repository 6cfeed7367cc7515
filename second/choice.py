"""Which indices the trial asks for."""

from whole import primes

MOST = 65535
ALL_TO = 400
LARGEST_LIMIT = 2**63 - 1
FILLING = 4 * 10**18  # what lent entries hold: no coefficient is as large


def odd_primes(n):
    return [p for p in primes(n) if p != 2]


def five_odd_primes():
    return [n for n in range(1, MOST + 1) if len(odd_primes(n)) == 5]


def powers():
    """Powers of 2, the largest power of each prime up to 31, and the largest square of a prime."""
    found = [2**k for k in range(9, 16)] + [251**2]
    for p in (3, 5, 7, 11, 13, 17, 19, 23, 29, 31):
        power = p
        while power * p <= MOST:
            power *= p
        found.append(power)
    return found


def classes():
    """Of each class (how many odd primes, even or odd, t = 1 or not) above ALL_TO: the first, some between, the last."""
    members = {}
    for n in range(ALL_TO + 1, MOST + 1):
        odd = odd_primes(n)
        m = 2 - n % 2
        for p in odd:
            m *= p
        members.setdefault((len(odd), n % 2, m == n), []).append(n)
    found = []
    for _, list_of in sorted(members.items()):
        for place in (0, 1, 2, 4, 7, 8):
            found.append(list_of[(len(list_of) - 1) * place // 8])
    return found


def largest():
    """The last indices of all; the largest degrees of F (primes) and of I (many small primes); the tallest."""
    return list(range(65526, MOST + 1)) + [65519, 65497, 60060, 30030, 62790, 40755, 62205, 51051, 57057, 10465, 26565]


def choice():
    found = five_odd_primes() + powers() + classes() + largest()
    return sorted({n for n in found if n > ALL_TO})


def table():
    """The indices of the table, in its order."""
    return list(range(1, ALL_TO + 1)) + choice()


PARTIAL_ORDERS = (105, 1155, 15015)
