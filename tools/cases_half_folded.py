"""Lines for test_field: codewords that are folded part way. Every list that folds at any variables leave of up to four coordinates, with L and a fold
at every variable; whole chains of folds, which the block law must hold of; the conversion to the earlier reading; and 4, 5, 36 and 6, alone and in pairs."""
import itertools

from answers import fold_at, ints, without
from cases_field import front, text
from cases_record import in_pairs
from lines import Reader, drawn, hex_words, listed
from model import encode, shift

HUGE = (1 << 64) - 1


def drawn_words(stream, count):
    return ints(Reader().bytes("~w%dx%d" % (stream, count)))


# ---- what is done


def lists(original):
    """The lists that folds leave of so many coordinates."""
    return [c for n in range(original + 1) for c in map(list, itertools.combinations(range(original), n))]


def words(stream, count):
    return "~w%dx%d" % (stream, count) if count else "-"


def every_list():
    """L for each eps, and one past them, whose bits from k on count for nothing; a fold at every variable; the conversion."""
    for original, k in itertools.product(range(5), range(5)):
        yield "# original n %d, k %d" % (original, k)
        gammas = words(7000 + 8 * original + k, k * original)
        for coordinates in lists(original):
            n, stream = len(coordinates), 7100 + 8 * original + k
            for eps in range((1 << k) + 1):
                yield "l_of %d %d %d %d %s %s %d" % (n, k, original, eps, listed(coordinates), gammas, 2 * n)
            for var in range(n):
                values, room = "~w%dx%d" % (stream, 1 << n + k), 1 << n + k
                yield "fold %d %d %d %d ~w%dx1 %s %s %d" % (n, k, original, var, stream + 100 + var, listed(coordinates), values, room)
            yield "earlier_reading %d %d %d %s" % (n, k, original, listed(coordinates))


def large():
    """Lists of many coordinates: all of 20, all but one; some of 12 and of 20, with a fold of what there is room for."""
    twenty = list(range(20))
    for gone in (None, *twenty):
        kept = [c for c in twenty if c != gone]
        yield "l_of %d 4 20 %d %s ~w7300x80 %d" % (len(kept), 15 - (gone or 0) % 16, listed(kept), 2 * len(kept))
        yield "earlier_reading %d 4 20 %s" % (len(kept), listed(kept))
    yield from ["l_of 0 %d 20 %d - %s 0" % (k, (1 << k) - 1, words(7301, 20 * k)) for k in range(5)]
    yield from ["l_of 20 0 20 0 %s - 40" % listed(twenty), "l_of 20 3 20 %d %s ~w7302x60 40" % (HUGE, listed(twenty))]
    for k, var, kept in [(4, 7, twenty[12:]), (0, 11, twenty[:12]), (4, 0, twenty[::3][1:]), (2, 3, twenty[::3]), (4, 0, [19]), (1, 5, twenty[9:])]:
        n = len(kept)
        yield "fold %d %d 20 %d ~w7303x1 %s ~w7304x%d %d" % (n, k, var, listed(kept), 1 << n + k, 1 << n + k)


# ---- chains of folds


def folded_table(table, steps, shifts):
    """A table folded at variables, by each challenge and the entry of L(eps) at the folded coordinate."""
    for (var, r), d in zip(steps, shifts):
        table = fold_at(table, var, r ^ d)
    return table


def restricted(original, k, gammas, coordinates):
    return [gammas[j * original + c] for j in range(k) for c in coordinates]


def hold_to_law(original, k, table, gammas, steps, values, coordinates):
    """Block eps of a folded codeword is block eps of the encoding, under the coordinates that are left, of the table folded at the same variables, each
    challenge r replaced by r and the entry of L(eps) at the folded coordinate."""
    n, left = len(coordinates), restricted(original, k, gammas, coordinates)
    for eps in range(1 << k):
        whole, kept, shifts = shift(original, k, gammas, eps), list(range(original)), []
        for var, _ in steps:
            shifts.append(whole[kept[var]])
            kept = without(kept, var)
        assert kept == coordinates
        block = encode(n, k, folded_table(table, steps, shifts), left)[eps << n : eps + 1 << n]
        assert values[eps << n : eps + 1 << n] == block, "the block law fails: original n %d, k %d, eps %d, steps %s" % (original, k, eps, steps)


def chain(original, k, table, gammas, steps):
    """The folds of a committed table, each on what the last one left, and L of what is left; the law holds after each."""
    values, coordinates = encode(original, k, table, gammas), list(range(original))
    hold_to_law(original, k, table, gammas, [], values, coordinates)
    for i, (var, r) in enumerate(steps):
        n = len(coordinates)
        yield "fold %d %d %d %d %x %s %s %d" % (n, k, original, var, r, listed(coordinates), hex_words(values), 1 << n + k)
        values, coordinates = fold_at(values, var, r), without(coordinates, var)
        hold_to_law(original, k, table, gammas, steps[: i + 1], values, coordinates)
        yield "l_of %d %d %d %d %s %s %d" % (n - 1, k, original, (1 << k) - 1, listed(coordinates), hex_words(gammas), 2 * (n - 1))


def orders(n):
    """The variables of n folds, in every order."""
    return itertools.product(*(range(n - i) for i in range(n)))


def chains():
    yield "# the small case: 57 is the table 5, 9 folded by 2 + 7"
    assert fold_at([5, 9], 0, 2 ^ 7) == [57]
    yield from chain(1, 1, [5, 9], [7], [(0, 2)])
    for n, k in [(1, 0), (2, 1), (2, 2), (3, 1), (3, 2)]:
        yield "# n %d, k %d: folds in every order" % (n, k)
        stream = 7400 + 8 * n + k
        table, gammas, challenges = drawn_words(stream, 1 << n), drawn_words(stream + 100, k * n), drawn_words(stream + 200, n)
        for variables in orders(n):
            yield from chain(n, k, table, gammas, list(zip(variables, challenges)))


def check_law():
    """The law at every k, for folds at variables that are drawn."""
    for case, (n, k) in enumerate(itertools.product(range(1, 5), range(5))):
        table, gammas, challenges = drawn_words(7700 + case, 1 << n), drawn_words(7800 + case, k * n), drawn_words(7900 + case, n)
        steps = [(drawn(case, i) % (n - i), r) for i, r in enumerate(challenges)]
        assert len(list(chain(n, k, table, gammas, steps))) == 2 * n


# ---- what is refused


def wrong_lists(right, original):
    """Lists that are none of a codeword of so many original coordinates: of other lengths, not rising, equal neighbours, numbers past the end."""
    n = len(right)
    yield from [right[:-1], right[1:], [], right + [original - 1], [*right, original], right + [HUGE], list(range(n + 1))]
    yield from [right[::-1], [right[1], right[0], *right[2:]], [*right[:-2], right[-1], right[-2]]]
    yield from [[right[0], right[0], *right[2:]], [*right[:-2], right[-1], right[-1]], [0] * n, [original - 1] * n]
    yield from ([*right[:-1], last] for last in (original, original + 1, 1 << 32, HUGE - 1, HUGE))
    yield from [[HUGE, *right[1:]], [right[0], HUGE, *right[2:]], [HUGE] * n, list(range(HUGE - n + 1, HUGE + 1))]


def refused_lists():
    """36 in every way."""
    right, original = [0, 2, 4], 5
    assert all(listed(wrong) != listed(right) for wrong in wrong_lists(right, original))
    for wrong in wrong_lists(right, original):
        yield "fold 3 1 5 1 2 %s ~w9x16 16" % listed(wrong)
        yield "l_of 3 1 5 1 %s ~w8x5 6" % listed(wrong)
        yield "earlier_reading 3 1 5 %s" % listed(wrong)
    yield "# no list is left of fewer coordinates than n, nor of none but the empty one"
    for small in range(3):
        yield from ("fold 3 1 %d 1 2 %s ~w9x16 16" % (small, listed(given)) for given in ([0, 1, 2], range(small)))
        yield from ("l_of 3 1 %d 1 %s %s 6" % (small, listed(given), words(8, small)) for given in ([0, 1, 2], range(small)))
        yield from ("earlier_reading 3 1 %d %s" % (small, listed(given)) for given in ([0, 1, 2], range(small)))
    for original in (0, 1, 20):
        for given in ("0", "%d" % HUGE):
            yield from ["l_of 0 1 %d 1 %s %s 0" % (original, given, words(8, original)), "earlier_reading 0 1 %d %s" % (original, given)]
            yield "fold 0 1 %d 0 2 %s 5,9 2" % (original, given)
        yield from ["earlier_reading 0 1 %d -" % original, "fold 0 1 %d 0 2 - 5,9 2" % original]
    for given in (range(19), range(21), [*range(19), 20], range(1, 21), [*range(18), 19, 18], [0, *range(19)]):
        yield from ["l_of 20 4 20 15 %s ~w8x80 40" % listed(given), "earlier_reading 20 4 20 %s" % listed(given)]


def refused_in_pairs():
    """4, 5, 36 and 6, alone and in pairs: the first gives the number."""
    bad = ["0,2", "0,2,4,4", "0,4,2", "2,2,4", "0,2,5", "0,2,%d" % HUGE]
    ranges = [(0, 21), (1, 5), (2, 21)]
    values = [(6, front(drawn_words(9, 16), 31)), (6, "~w9x17"), (7, 15), (7, 17)]
    yield from in_pairs("fold", [3, 1, 5, 1, "2", "0,2,4", "~w9x16", 16], [*ranges, *values, *((5, x) for x in bad), (3, 3), (3, HUGE)])
    gammas = [(5, front(drawn_words(8, 5), 9)), (5, "~w8x6"), (6, 5), (6, 7)]
    yield from in_pairs("l_of", [3, 1, 5, 1, "0,2,4", "~w8x5", 6], [*ranges, *gammas, *((4, x) for x in bad)])
    yield from in_pairs("earlier_reading", [3, 1, 5, "0,2,4"], [*ranges, *((3, x) for x in bad)])
    yield "# numbers far past 4"
    for at, x in itertools.product(range(3), (22, 64, 1 << 32, HUGE)):
        given = [3, 1, 5]
        given[at] = x
        numbers = " ".join(map(str, given))
        yield from ["fold %s 1 2 0,2,4 ~w9x16 16" % numbers, "l_of %s 1 0,2,4 ~w8x5 6" % numbers, "earlier_reading %s 0,2,4" % numbers]
    yield "# gammas for n coordinates, and not for the original ones"
    yield from ["l_of 3 1 5 1 0,2,4 ~w8x3 6", "l_of 3 2 5 1 0,2,4 ~w8x6 6", "l_of 3 1 3 1 0,1,2 ~w8x5 6"]


def files():
    check_law()
    return [("half_folded.txt", text([*every_list(), *large(), *chains(), *refused_lists(), *refused_in_pairs()]))]
