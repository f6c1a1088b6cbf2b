"""Link cards, sending, receiving and the listing, in document 01's words; the rewriting of stored cards, the standard cards and the audit of stored
cards, in those of document 02's R-4, R-5 and R-13. Nothing here is taken from the Rattle code.

Made to be read, not to be fast. Streams are counted from 0; parity stream j is stream k + j. An error is a pair (b, stream).
"""


# The ranges of k, m and J, and that of n, which depends on k (document 01, "The code" and "Checks"; for J document 02, R-13); the defaults of k and n.
RANGE_OF_K, RANGE_OF_M, RANGE_OF_J = range(1, 5), range(32), range(1, 11)
DEFAULT_K, DEFAULT_N = 1, 2
# The most bytes of a card that a program reads (document 01, "The listing"; document 02, R-4 and R-13).
LONGEST_READ = 2048


def range_of_n(k):
    return range(k + 1, 9)


# The refusals: document 01's two lists, and the last of document 02's R-4. Those from 12 to 17 are met by calls that are not here.
ENDS_INSIDE_FIELD = 1
K_OUTSIDE_RANGE = 2
N_OUTSIDE_RANGE = 3
M_OUTSIDE_RANGE = 4
MAP_BIT_BEYOND_STREAMS = 5
MASK_OUTSIDE_RANGE = 6
J_OUTSIDE_RANGE = 7
OWN_DIGIT_NOT_TOUCHED = 8
ERROR_TOUCHED_EARLIER = 9
BYTES_AFTER_LAST_CHECK = 10
DIGIT_BEYOND_STREAMS = 11
LEVEL_NOT_FINITE = 12
OUTPUT_TOO_SHORT = 13
OTHER_CARD_NUMBER = 14
FRAMES_USED_UP = 15
INFORMATION_AFTER_TAIL = 16
TAIL_USED_UP = 17
DEFAULT_STATED = 18

# Under which rule a card is read: by the former one it could state k as 1 and n as 2, their defaults.
FORMER, PRESENT = "former", "present"


class Refused(Exception):
    """A refusal's number, and its place: the card offset or the frame's time."""

    def __init__(self, number, place):
        self.number, self.place = number, place

    def line(self):
        return f"refused {self.number} at {self.place}"


class Fields:
    """A card's bytes as they are read: front to back, and the first fault stops it."""

    def __init__(self, card, rule):
        self.card, self.rule, self.at = card, rule, 0

    def field(self, size, allowed, refusal):
        """The next field, an integer of `size` bytes. A field cut short comes before its value."""
        start, self.at = self.at, self.at + size
        if len(self.card) < self.at:
            raise Refused(ENDS_INSIDE_FIELD, len(self.card))
        value = int.from_bytes(self.card[start : self.at], "little")
        if value not in allowed:
            raise Refused(refusal, start)
        return value

    def unless_default(self, stands, allowed, refusal, default):
        """A field of one byte that is left out if it has its default. That it does is tested directly after its range."""
        if not stands:
            return default
        start = self.at
        value = self.field(1, allowed, refusal)
        if value == default and self.rule == PRESENT:
            raise Refused(DEFAULT_STATED, start)
        return value

    def masks(self, size, count, m):
        """A map of `size` bytes, and the masks that stand; the others are zero."""
        stands = self.field(size, range(1 << count), MAP_BIT_BEYOND_STREAMS)
        return [self.field(4, range(1, 1 << (m + 1)), MASK_OUTSIDE_RANGE) if stands >> at & 1 else 0 for at in range(count)]


class Card:
    """A card of k information and p parity streams with memory m.

    generators[i][j] and checks[i][q][j] are masks: bit a is the term of offset a.
    """

    def __init__(self, number, k, n, m, generators, checks):
        self.number, self.k, self.p, self.m = number, k, n - k, m
        self.generators, self.checks = generators, checks

    @classmethod
    def read(cls, card, rule=PRESENT):
        """The card of these bytes, or its refusal."""
        fields = Fields(card, rule)
        stands = fields.field(1, range(4), MAP_BIT_BEYOND_STREAMS)
        number = fields.field(1, range(256), None)
        k = fields.unless_default(stands & 1, RANGE_OF_K, K_OUTSIDE_RANGE, DEFAULT_K)
        n = fields.unless_default(stands & 2, range_of_n(k), N_OUTSIDE_RANGE, DEFAULT_N)
        if n not in range_of_n(k):
            raise Refused(N_OUTSIDE_RANGE, 0)  # n doesn't stand
        m = fields.field(1, RANGE_OF_M, M_OUTSIDE_RANGE)
        p = n - k
        generators = fields.masks(2, k * p, m)
        made = cls(number, k, n, m, [generators[i * p : (i + 1) * p] for i in range(k)], [[] for _ in range(k)])
        for i, checks in enumerate(made.checks):
            for _ in range(fields.field(1, RANGE_OF_J, J_OUTSIDE_RANGE)):
                start = fields.at
                check = fields.masks(1, p, m)
                touched = made.touched_by(check)
                if (0, i) not in touched:
                    raise Refused(OWN_DIGIT_NOT_TOUCHED, start)
                if touched & made.touched(i) - {(0, i)}:
                    raise Refused(ERROR_TOUCHED_EARLIER, start)
                checks.append(check)
        if fields.at < len(card):
            raise Refused(BYTES_AFTER_LAST_CHECK, fields.at)
        return made

    def bytes(self, state_k=False, state_n=False):
        """The card as the section "The card" lays it out; k and n stand where they are not the default, or, as only the former rule allowed,
        where they are to be stated all the same."""
        n = self.k + self.p
        state_k, state_n = state_k or self.k != DEFAULT_K, state_n or n != DEFAULT_N
        head = bytes([state_k | state_n << 1, self.number])
        head += bytes([self.k] if state_k else []) + bytes([n] if state_n else []) + bytes([self.m])
        generators = [g for row in self.generators for g in row]
        out = head + mapped(generators, 2)
        for checks in self.checks:
            out += bytes([len(checks)]) + b"".join(mapped(check, 1) for check in checks)
        return out

    def parity(self, frames, u, j):
        """The digit of parity stream j at u, worked out from the information digits of the frames."""
        digit = 0
        for i in range(self.k):
            for a in range(min(u, self.m) + 1):
                digit ^= (self.generators[i][j] >> a) & (frames[u - a] >> i) & 1
        return digit

    def sent(self, information):
        """The frames sent for the information frames, tail included."""
        info = list(information) + [0] * self.m
        return [frame | sum(self.parity(info, u, j) << (self.k + j) for j in range(self.p)) for u, frame in enumerate(info)]

    def touched_by(self, check):
        """The errors that a check touches."""
        errors = set()
        for b in range(self.m + 1):
            errors |= {(b, self.k + j) for j in range(self.p) if check[j] >> b & 1}
            for s in range(self.k):
                total = sum((check[j] >> a & 1) * (self.generators[s][j] >> (a - b) & 1) for j in range(self.p) for a in range(b, self.m + 1))
                if total % 2:
                    errors.add((b, s))
        return errors

    def touched(self, i):
        """The errors that at least one check of stream i touches."""
        return set().union(*(self.touched_by(check) for check in self.checks[i]))

    def correctable(self, information, received):
        """The condition under which the stream must come out as sent: for each digit at most half of J wrong digits among the touched ones."""
        wrong = [x ^ y for x, y in zip(self.sent(information), received)]
        return all(
            2 * sum(wrong[u + b] >> s & 1 for b, s in self.touched(i)) <= len(self.checks[i])
            for u in range(len(information))
            for i in range(self.k)
        )

    def decided(self, i, syndromes):
        """The decided error of digit i, by the syndromes of its frame and the m after it, decided errors taken out."""
        offsets = range(self.m + 1)
        checks = [sum(syndromes[a][j] for j in range(self.p) for a in offsets if check[j] >> a & 1) % 2 for check in self.checks[i]]
        return int(2 * sum(checks) > len(checks))

    def received(self, frames):
        """The frames handed out: each is decided once the m frames after it are there."""
        streams, offsets = range(self.k), range(self.m + 1)
        syndromes = [[frame >> (self.k + j) & 1 ^ self.parity(frames, u, j) for j in range(self.p)] for u, frame in enumerate(frames)]
        handed_out = []
        for u in range(len(frames) - self.m):
            # All streams are decided before any is fed back.
            decided = [self.decided(i, syndromes[u : u + self.m + 1]) for i in streams]
            for i in streams:
                for j in range(self.p):
                    for a in offsets:
                        syndromes[u + a][j] ^= decided[i] & self.generators[i][j] >> a
            handed_out.append(sum((frames[u] >> i & 1 ^ decided[i]) << i for i in streams))
        return handed_out


def mapped(masks, width):
    """A map of the masks that are not zero, and these."""
    stands = sum(1 << at for at, mask in enumerate(masks) if mask)
    return stands.to_bytes(width, "little") + b"".join(mask.to_bytes(4, "little") for mask in masks if mask)


def listing(given):
    """What the listing program writes for an input."""
    length = int.from_bytes(given[:2], "little") if 2 <= len(given) else 0
    card, frames = given[2 : 2 + length], given[2 + length :]
    if LONGEST_READ < length or 32768 < len(frames):
        lines = ["input too long"]
    else:
        try:
            lines = listed(Card.read(card), frames)
        except Refused as refused:
            lines = [refused.line()]
    return "".join(line + "\n" for line in lines).encode()


def listed(card, frames):
    """The lines under an accepted card, or the refusal of a frame."""
    n = card.k + card.p
    for time, frame in enumerate(frames):
        if frame >> n:
            raise Refused(DIGIT_BEYOND_STREAMS, time)
    handed_out = card.received(frames)
    lines = [f"card {card.number} k {card.k} n {n} m {card.m}"]
    for time, frame in enumerate(handed_out):
        lines.append(" ".join(str(number) for number in [time] + [frame >> i & 1 for i in range(card.k)]))
    return lines + [f"end {len(handed_out)}"]


def rewriting(given):
    """What the program `rewrite` writes for an input: the bytes of a stored card's written form, or a line."""
    if LONGEST_READ < len(given):
        return b"input too long\n"
    try:
        return Card.read(given, FORMER).bytes()
    except Refused as refused:
        return (refused.line() + "\n").encode()


def fault(content):
    """Why a stored card file does not pass; None if it does. Its content is None where reading fails."""
    if content is None:
        return b"not read"
    if LONGEST_READ < len(content):
        return b"input too long"
    try:
        Card.read(content)
    except Refused as refused:
        return refused.line().encode()
    return None


def audit(files):
    """What the program `audit` writes for stored card files, each a name and a content, in order."""
    faults = [(name, fault(content)) for name, content in files]
    refused = [name + b" " + line + b"\n" for name, line in faults if line]
    return b"".join(refused) + b"end %d\n" % (len(faults) - len(refused))


def framed(card, frames):
    """An input of the listing program: a two-byte card length, the card's bytes, the frames."""
    return len(card).to_bytes(2, "little") + card + bytes(frames)


def syndrome(a, j, p):
    """The check that is one syndrome, of p parity streams."""
    return [1 << a if j == stream else 0 for stream in range(p)]


def of_eleven_checks(count):
    """A card with so many checks of eleven, all of them good: one for each term. tests/inputs/cards.c has the same."""
    generators = [0b11, 0b101, 0b1001, 0b10001, 1, 1, 1]
    checks = [syndrome(a, j, 7) for j, terms in enumerate(generators) for a in range(5) if terms >> a & 1]
    return Card(13, 1, 8, 4, [generators], [checks[:count]])


def of_terms(terms):
    """The card of a code with one generator of these terms: a check for the syndrome of each, their count as its number, the last one as m."""
    return Card(len(terms), 1, 2, terms[-1], [[sum(1 << a for a in terms)]], [[[1 << a] for a in terms]])


def self_orthogonal(last):
    """The cards by the report's rule for self-orthogonal codes (its section 3.5), for rising offset up to `last`: by the count of their checks."""
    terms, taken, cards = [], set(), {}
    for a in range(last + 1):
        card = of_terms(terms + [a])
        errors = card.touched_by([1 << a])
        # The term is taken exactly if its syndrome shares no error with the checks already taken, apart from digit 0.
        if not errors & taken - {(0, 0)}:
            terms.append(a)
            taken |= errors
            cards[len(terms)] = card
    return cards


# The standard cards, by their J, which is 2 at least: a single check puts nothing right.
STANDARD = {J: card for J, card in self_orthogonal(RANGE_OF_M[-1]).items() if 2 <= J}
assert [card.m for card in STANDARD.values()] == [1, 3, 7, 12, 20, 30] and list(STANDARD) == [2, 3, 4, 5, 6, 7]
assert all(Card.read(card.bytes()).bytes() == card.bytes() for card in STANDARD.values())

# The cards on the bench.
P = Card(7, 1, 2, 1, [[3]], [[[1], [2]]])
Q = Card(8, 1, 2, 3, [[11]], [[[1], [2], [8]]])
R = Card(9, 1, 2, 5, [[57]], [[[1], [8], [16], [2 | 32]]])
T = Card(10, 2, 3, 2, [[3], [5]], [[[1], [2]], [[1], [4]]])
assert P.bytes() == bytes.fromhex("00 07 01 01 00 03 00 00 00 02 01 01 00 00 00 01 02 00 00 00")
assert rewriting(P.bytes(True, True)) == P.bytes()
assert listing(framed(P.bytes(), [3, 3, 3, 2])) == b"card 7 k 1 n 2 m 1\n0 1\n1 0\n2 1\nend 3\n"
assert audit([(b"p", P.bytes()), (b"a p", P.bytes(True)), (b"", None), (b"p", P.bytes())]) == b"a p refused 18 at 2\n not read\nend 2\n"
