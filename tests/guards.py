"""Guards: small crew lists with calls, each of which tells the right machine from one wrong reading of document 01.

Each guard: the wrong reading (a name of find_guards.py), m, the rows, c, the calls from a fresh record, then the
right and the wrong machine's answers. An answer is the number and the results beside it: changed and taken up for
eliminate and review, q for quality, c for mine. After the answers stands the standing set at the end, as a number.
Eliminate is followed by its weights and by a and b of the tolerance a/b. Lists were found by
find_guards.py, by longer loops over its machines, or by hand; one is from the readings. Where possible the tolerance
is 1/1, since the later rule of request 6 changes nothing there.
"""
import find_guards as wrong


def guard(reading, m, rows, c, calls, right, mistaken):
    return dict(wrong=reading, m=m, rows=rows, c=c, calls=calls, right=right, mistaken=mistaken)


def eliminate(w1, w2, w3, w4, a=1, b=1):
    return "eliminate", (w1, w2, w3, w4), a, b


GUARDS = [
    # all weights 0: q' = q = 0; then q' = q = 6, and 3·4 = 4·3
    guard(wrong.AT_EQUAL, 2, [1, 2, 3], 3, [eliminate(0, 0, 0, 0)], ([(0, 0, 1)], 7), ([(0, 1, 1)], 3)),
    guard(wrong.AT_EQUAL, 3, [3, 5], 3, [eliminate(1, 0, 1, 0)], ([(0, 0, 1)], 7), ([(0, 1, 1)], 6)),
    guard(wrong.AT_EQUAL, 3, [3, 5], 3, [eliminate(0, 0, 1, 0, 4, 3)], ([(0, 0, 1)], 7), ([(0, 1, 1)], 6)),

    # roles 1 and 2 are strikable, not both, and have redundancy 1 each
    guard(wrong.TIES_HIGH, 3, [1, 3, 6], 4, [eliminate(1, 0, 0, 0)], ([(0, 1, 2)], 13), ([(0, 1, 2)], 11)),

    guard(wrong.ALL_STANDING, 4, [3, 5, 10], 5, [eliminate(0, 0, 0, 1)], ([(0, 1, 3)], 27), ([(0, 2, 3)], 28)),

    # the first is from the readings; the last leaves other roles standing
    guard(wrong.OVER_WORKLIST, 6, [36, 18, 18, 39, 20], 7, [eliminate(0, 1, 3, 0, 11, 10)],
          ([(0, 2, 9)], 103), ([(0, 2, 8)], 103)),
    guard(wrong.OVER_WORKLIST, 4, [3, 3, 5, 14], 6, [eliminate(0, 1, 3, 0, 9, 8)],
          ([(0, 2, 9)], 43), ([(0, 2, 8)], 43)),
    guard(wrong.OVER_WORKLIST, 4, [3, 7, 13, 14], 10, [eliminate(1, 2, 3, 1)],
          ([(0, 5, 17)], 143), ([(0, 5, 18)], 143)),
    guard(wrong.OVER_WORKLIST, 6, [30, 39, 39, 56, 63], 7, [eliminate(0, 2, 1, 0, 9, 8)],
          ([(0, 3, 11)], 51), ([(0, 3, 12)], 116)),

    guard(wrong.ORDERED_ANEW, 3, [3, 5, 6], 6, [eliminate(1, 0, 0, 0)], ([(0, 3, 6)], 52), ([(0, 2, 6)], 30)),

    guard(wrong.REVIEW_EQUAL, 3, [3, 5], 3, [("strike", 0), ("review", (0, 0, 0, 0))],
          ([(0,), (0, 0, 1)], 6), ([(0,), (0, 1, 1)], 7)),
    guard(wrong.REVIEW_EQUAL, 3, [3, 5], 3, [("strike", 0), ("review", (1, 0, 1, 0))],
          ([(0,), (0, 0, 1)], 6), ([(0,), (0, 1, 1)], 7)),

    guard(wrong.OWN_COVER, 1, [1], 1, [("strike", 0)], ([(8,)], 1), ([(0,)], 0)),
    guard(wrong.OWN_COVER, 1, [1], 1, [eliminate(1, 1, 1, 1)], ([(0, 0, 0)], 1), ([(0, 1, 1)], 0)),
    guard(wrong.OWN_COVER, 3, [3, 6, 7], 4, [("strike", 1)], ([(8,)], 15), ([(0,)], 13)),

    guard(wrong.OWN_DROPPED, 1, [1], 1, [("mine",), eliminate(1, 1, 1, 1)],
          ([(0, 1), (0, 0, 0)], 1), ([(0, 0), (0, 0, 0)], 0)),
    guard(wrong.OWN_DROPPED, 3, [3, 6, 7], 4, [("mine",), eliminate(1, 1, 1, 1)],
          ([(0, 4), (0, 2, 2)], 6), ([(0, 3), (0, 1, 1)], 6)),

    # user 2 comes to role 0 from role 2 by two links
    guard(wrong.TWO_BELOW, 3, [1, 3, 7], 3, [("quality", (0, 1, 0, 0))], ([(0, 3)], 7), ([(0, 4)], 7)),
    guard(wrong.TWO_BELOW, 3, [3, 5, 7], 4, [eliminate(0, 1, 0, 0)], ([(0, 0, 2)], 15), ([(0, 1, 3)], 14)),

    guard(wrong.LINK_KEPT, 4, [1, 7, 11], 4, [("strike", 1), ("restore", 1), ("quality", (0, 0, 0, 1))],
          ([(0,), (0,), (0, 3)], 15), ([(0,), (0,), (0, 5)], 15)),

    guard(wrong.WORKLIST_ANEW, 3, [1, 3, 6], 4, [eliminate(1, 0, 1, 0)], ([(0, 1, 3)], 11), ([(0, 1, 2)], 11)),

    guard(wrong.ONE_PASS, 3, [1, 3, 6], 4, [eliminate(1, 0, 1, 0)], ([(0, 1, 3)], 11), ([(0, 1, 2)], 11)),
    guard(wrong.ONE_PASS, 4, [7, 11, 13], 7, [eliminate(1, 0, 2, 1)], ([(0, 3, 10)], 120), ([(0, 2, 7)], 121)),

    guard(wrong.START_QUALITY, 3, [3, 5, 7], 4, [eliminate(1, 0, 1, 0)], ([(0, 1, 3)], 7), ([(0, 2, 3)], 6)),

    # right until request 6, which turns the two answers round
    guard(wrong.LOWEST_QUALITY, 3, [3, 5, 7], 4, [eliminate(0, 1, 1, 0, 4, 3)],
          ([(0, 2, 2)], 6), ([(0, 1, 3)], 14)),

    guard(wrong.REVIEW_ONCE, 3, [3, 5, 7], 4, [("strike", 0), ("strike", 3), ("review", (0, 1, 0, 0))],
          ([(0,), (0,), (0, 1, 3)], 14), ([(0,), (0,), (0, 1, 2)], 14)),
]
