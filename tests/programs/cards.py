"""Cards for the tests of programs: at the limits of what is accepted and just beyond, the bench's and random ones, whole and damaged."""
import random

from running import SAMPLES  # which says where the reference is
from reference import LONGEST_READ, P, Q, R, RANGE_OF_J, T, Card, of_eleven_checks, rewriting, syndrome

MOST_CHECKS = RANGE_OF_J[-1]
RANDOM_CARDS = 150
MANY_CHECKS = 40
STATED = {"": (False, False), ", k stated": (True, False), ", n stated": (False, True), ", both stated": (True, True)}


def longest():
    """An accepted card of 755 bytes, which has no default to state: tests/inputs/cards.c has the same, by the same tables."""
    terms = (0, 58, 70, 87, 91, 95, 99, 101, 104, 108, 109, 113, 119, 121, 122, 123)
    check_of = "138.6..a...a39.254.875.1.6.8.7..4.9...a.274..8....a..21...23..7...6..a3...59..7a.17a8..4.8.5...6.8.7.8..9...a"

    def masks(i, times):
        """Digits so many frames after stream i, where four frames of a code with one information and one parity stream are taken as one."""
        return [sum(1 << (i + r) // 4 for r in times if (i + r) % 4 == j) for j in range(4)]

    checks = [[r for r, of in enumerate(check_of) if of == q] for q in "123456789a"]
    return Card(11, 4, 8, 31, [masks(i, terms) for i in range(4)], [[masks(i, check) for check in checks] for i in range(4)])


LONGEST = longest()
assert len(LONGEST.bytes()) == 755
TEN_CHECKS, ELEVEN_CHECKS = of_eleven_checks(10), of_eleven_checks(11)


def random_shape(r):
    """k, n and m. k is 1 most often, and so is n 2."""
    k = r.choice((1, 1, 1, 2, 3))
    n = 2 if k == 1 and r.random() < 0.6 else r.randint(k + 1, 8)
    return k, n, r.choice((0, 1, 3, 6, 9, 31))


def random_card(r, k, n, m):
    """Random generators, and single syndromes as checks, as many as are orthogonal: there may be too many."""
    generators = [[sum({1 << r.randint(0, m) for _ in range(3)}) for _ in range(n - k)] for _ in range(k)]
    card = Card(r.randrange(256), k, n, m, generators, [[] for _ in range(k)])
    for i in range(k):
        syndromes = [(a, j) for j in range(n - k) for a in range(m + 1) if generators[i][j] >> a & 1]
        taken = set()
        for a, j in r.sample(syndromes, len(syndromes)):
            check = syndrome(a, j, n - k)
            errors = card.touched_by(check)
            if not errors & taken - {(0, i)}:
                card.checks[i].append(check)
                taken |= errors
    return card


def with_most_checks(card):
    """The card with no more checks of a stream than it may have."""
    return Card(card.number, card.k, card.k + card.p, card.m, card.generators, [checks[:MOST_CHECKS] for checks in card.checks])


def damaged(r, card):
    """A card's bytes, cut, extended, or with a byte changed, mostly near the front."""
    at = r.randrange(r.choice((5, len(card))))
    return r.choice((card[:at], card + bytes([r.randrange(256)]), card[:at] + bytes([r.choice((0, 1, 2, 3, 255))]) + card[at + 1 :]))


def stored():
    """The samples' cards: those of the listings' inputs, too."""
    given = {path.name: path.read_bytes() for path in sorted(SAMPLES.glob("*.card"))}
    given.update(("the card of " + path.name, path.read_bytes()[2:][: path.read_bytes()[0]]) for path in sorted(SAMPLES.glob("*.bin")))
    return given


def limits():
    """Inputs at each limit, by what they are."""
    given = {"no input": b"", "one byte": b"\3"}
    for length in (LONGEST_READ - 1, LONGEST_READ, LONGEST_READ + 1, 5000, 70000):
        given[f"card P and zeros, {length} bytes"] = P.bytes(True, True).ljust(length, b"\0")
        given[f"{length} bytes above 3"] = b"\xff" * length
    given["the longest card"] = LONGEST.bytes()
    for how, stated in {"": False, ", k stated": True}.items():
        given["ten checks" + how] = TEN_CHECKS.bytes(stated)
        given["eleven checks" + how] = ELEVEN_CHECKS.bytes(stated)
        assert rewriting(given["ten checks" + how]) == TEN_CHECKS.bytes()
        assert rewriting(given["eleven checks" + how]) == b"refused 7 at %d\n" % (34 + stated)
    for length in (LONGEST_READ, LONGEST_READ + 1):
        given[f"the longest card and zeros, {length} bytes"] = LONGEST.bytes().ljust(length, b"\0")
    return given


def cards():
    """The bench's cards, whole, cut everywhere, and with each byte changed; random cards, whole and damaged."""
    given = {}
    for name, card in {"P": P, "Q": Q, "R": R, "T": T}.items():
        for how, stated in STATED.items():
            given[f"card {name}{how}"] = card.bytes(*stated)
    for name in ("card P", "card P, both stated", "card T"):
        for length in range(len(given[name])):
            given[f"{name}, its first {length} bytes"] = given[name][:length]
        given[name + ", and a byte"] = given[name] + b"\0"
    for name in ("card P", "card P, both stated"):
        whole = given[name]
        for at in range(len(whole)):
            for value in (0, 1, 2, 3, 255):
                given[f"{name}, byte {at} as {value}"] = whole[:at] + bytes([value]) + whole[at + 1 :]
    r = random.Random(1)
    for turn in range(RANDOM_CARDS):
        how = r.choice(list(STATED))
        card = with_most_checks(random_card(r, *random_shape(r))).bytes(*STATED[how])
        given[f"random card {turn}{how}"] = card
        if turn % 3 == 0:
            given[f"random card {turn}{how}, damaged"] = damaged(r, card)
    return given


def too_many_checks():
    """Random cards that are good but for the number of checks of a stream, and the same with the most."""
    given = {}
    r = random.Random(2)
    while len(given) < 2 * MANY_CHECKS:
        card = random_card(r, r.choice((1, 2)), 8, 20)
        counts = [len(checks) for checks in card.checks]
        if max(counts) <= MOST_CHECKS:
            continue
        how = r.choice(list(STATED))
        name = f"random card {len(given) // 2} with {counts} checks{how}"
        given[name] = card.bytes(*STATED[how])
        assert rewriting(given[name]).startswith(b"refused 7 at ")
        card = with_most_checks(card)
        given[name + ", and with the most"] = card.bytes(*STATED[how])
        assert rewriting(given[name + ", and with the most"]) == card.bytes()
    return given
