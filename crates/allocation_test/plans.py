#!/usr/bin/env python3
"""Makes stdin and stdout of allocation_test: plans on numbers, and what the allocation has to answer and write for each.

The answers come from a search written here from document 01 and document 02's K1, apart from the proved code, and on small plans are held
against a plain exhaustive planner that tries every cutting in whole watt-hours and in halves. Run it in this folder.
"""
import itertools
import random
import re

MOST = 10**9
ENGINES, DELIVERIES = 12, 37
# the last minute that MINUTES, FROM and TO may name, and the spans that an engine may have
WEEK, SPANS = 10080, 8


class Stopped(Exception):
    pass


def search(capacities, deliveries, allowance):
    """Document 01's steps A to F: the answer's word, its tries and its table."""
    engines, count = len(capacities), len(deliveries)
    if sum(e for e, _ in deliveries) > sum(capacities):
        return "none", 0, None
    made = 0

    def before(p, q, rest, limit):
        if limit[p] == 1 or limit[q] == 1:
            return limit[p] == 1 and (limit[q] != 1 or rest[p] > rest[q])
        return rest[p] * (limit[q] - 1) > rest[q] * (limit[p] - 1)

    def attempt():
        nonlocal made
        if made == allowance:
            raise Stopped
        made += 1

    def go(remaining, rest, limit):
        chosen = None
        for p in range(count):
            if rest[p] and (chosen is None or before(p, chosen, rest, limit)):
                chosen = p
        if chosen is None:
            return [0] * (count * engines)
        p = chosen
        opened = [i for i in range(engines) if remaining[i]]
        if limit[p] > 1 and opened and rest[p] <= (limit[p] - 1) * min(remaining[i] for i in opened):
            return fill(remaining, rest)
        for i in opened:
            lays = limit[p] == 1
            if (remaining[i] >= rest[p]) if lays else (remaining[i] < rest[p]):
                attempt()
                piece = rest[p] if lays else remaining[i]
                table = go(
                    [c - piece if k == i else c for k, c in enumerate(remaining)],
                    [r - piece if k == p else r for k, r in enumerate(rest)],
                    [n - (not lays) if k == p else n for k, n in enumerate(limit)],
                )
                if table is not None:
                    table[p * engines + i] = piece
                    return table
        return None

    def fill(remaining, rest):
        remaining, table = list(remaining), []
        for r in rest:
            for i in range(engines):
                piece = min(r, remaining[i])
                table.append(piece)
                r -= piece
                remaining[i] -= piece
        return table

    try:
        table = go(list(capacities), [e for e, _ in deliveries], [n for _, n in deliveries])
    except Stopped:
        return "stopped", allowance, None
    return ("none" if table is None else "found"), made, table


def served(capacities, deliveries, parts):
    """Whether some cutting in that many parts serves, by trying them all."""
    if not deliveries:
        return True
    (energy, limit), others = deliveries[0], deliveries[1:]

    def pieces(left, i, room):
        if i == len(capacities):
            if left == 0:
                yield ()
            return
        for piece in range(min(left, capacities[i]) + 1):
            if piece == 0 or room:
                for more in pieces(left - piece, i + 1, room - (piece > 0)):
                    yield (piece,) + more

    return any(
        served([c - x for c, x in zip(capacities, row)], others, parts)
        for row in pieces(parts * energy, 0, limit)
    )


def span_fault(span, earlier):
    """K1's 11: FROM not below TO, a minute of it in an earlier span of its engine, or the ninth of them."""
    engine, start, end = span
    own = [(s, e) for i, s, e in earlier if i == engine]
    return start >= end or any(max(s, start) < min(e, end) for s, e in own) or len(own) >= SPANS


def answer(mode, minutes, allowance, watts, fuels, energies, limits, quiet, table, spare):
    """What the call returns and leaves: refused by number and place, or the word, minutes, tries, table and spare."""
    if len(watts) != len(fuels) or len(energies) != len(limits) or len(quiet) % 3:
        return "refused", 3, 0, None, None
    if not watts:
        return "refused", 8, 0, None, None
    if len(watts) > ENGINES or len(energies) > DELIVERIES:
        return "refused", 7, 0, None, None
    if table != len(watts) * len(energies) or spare != len(watts):
        return "refused", 9, 0, None, None
    if not 1 <= minutes <= WEEK or allowance > MOST:
        return "refused", 6, 1, None, None
    for i, (w, f) in enumerate(zip(watts, fuels)):
        if w > 5_000_000 or f > MOST:
            return "refused", 6, 2 + i, None, None
    for p, (e, n) in enumerate(zip(energies, limits)):
        if not 1 <= e <= MOST or not 1 <= n <= 12:
            return "refused", 6, 2 + len(watts) + p, None, None
    spans = [tuple(quiet[k : k + 3]) for k in range(0, len(quiet), 3)]
    for k, (engine, start, end) in enumerate(spans):
        if start > WEEK or end > WEEK:
            return "refused", 6, 0, None, None
        if not 1 <= engine <= len(watts):
            return "refused", 10, 0, None, None
        if span_fault(spans[k], spans[:k]):
            return "refused", 11, 0, None, None
    deliveries = list(zip(energies, limits))
    # of each engine minute by minute whether it runs
    runs = []
    for i in range(len(watts)):
        own = [range(start, end) for engine, start, end in spans if engine == i + 1]
        runs.append([all(minute not in span for span in own) for minute in range(minutes)])

    def at(t):
        capacities = [min(f, w * sum(r[:t]) // 60) for w, f, r in zip(watts, fuels, runs)]
        word, tries, pieces = search(capacities, deliveries, allowance)
        if word != "stopped" and len(watts) * len(energies) <= 6 and sum(energies) <= 8:
            truth = any(served([n * c for c in capacities], [(e, k) for e, k in deliveries], n) for n in (1, 2))
            assert (word == "found") == truth, (capacities, deliveries, word)
        if word != "found":
            return word, t, tries, None, None
        loads = [sum(pieces[i :: len(watts)]) for i in range(len(watts))]
        return word, t, tries, pieces, [c - x for c, x in zip(capacities, loads)]

    result = at(minutes)
    if mode == 0 or result[0] != "found":
        return result
    low, high = 0, minutes
    while high - low > 1:
        t = (low + high) // 2
        probe = at(t)
        if probe[0] == "found":
            high = t
        elif probe[0] == "none":
            low = t
        else:
            return probe
    return at(high)


CALLS = []


def call(title, mode, minutes, allowance, watts, fuels, energies, limits, table=None, spare=None, quiet=()):
    table = len(watts) * len(energies) if table is None else table
    spare = len(watts) if spare is None else spare
    CALLS.append((title, mode, minutes, allowance, list(watts), list(fuels), list(energies), list(limits), list(quiet), table, spare))


def plan(title, capacities, deliveries, allowance=100, mode=0, minutes=60):
    call(title, mode, minutes, allowance, capacities, [MOST] * len(capacities), [e for e, _ in deliveries], [n for _, n in deliveries])


# document 01's "Plans to try" for 60 minutes: a title, engines by capacity, deliveries as energy and limit, the allowance, and what
# document 01 says of it
PLANS_TO_TRY = [
    ("as printed", [3000, 5000], [(5000, 2), (3000, 2)], 100, ("found", 2)),
    ("crosswise", [3000, 5000], [(5000, 1), (3000, 1)], 100, ("found", 2)),
    ("5000 fits no engine of 4000", [4000, 4000], [(5000, 1), (3000, 1)], 100, ("none", 0)),
    ("three deliveries on two engines", [4000, 4000], [(3000, 1), (3000, 1), (2000, 1)], 100, ("none", 4)),
    ("three on two, allowance 4", [4000, 4000], [(3000, 1), (3000, 1), (2000, 1)], 4, ("none", 4)),
    ("three on two, allowance 3", [4000, 4000], [(3000, 1), (3000, 1), (2000, 1)], 3, ("stopped", 3)),
    ("the same with 2000/2", [4000, 4000], [(3000, 1), (3000, 1), (2000, 2)], 100, ("found", 4)),
    ("6000 from two of three engines", [2000, 2000, 2000], [(6000, 2)], 100, ("none", 3)),
    ("straight fill with allowance 0", [4000, 4000], [(3000, 2), (5000, 3)], 0, ("found", 0)),
    ("an engine of 0", [0, 5000], [(5000, 2)], 100, ("found", 0)),
    ("no deliveries", [3000], [], 100, ("found", 0)),
]
# plans that tell document 01's search from others
CLOSE_PLANS = [
    ("the bulkier delivery comes second", [1, 3], [(1, 2), (3, 3)]),
    ("limit 1, the larger rest first", [2, 1], [(1, 1), (2, 1)]),
    ("no cut where remaining equals the rest", [2, 1], [(2, 2)]),
    ("equal bulk, the earlier first", [1, 3], [(2, 2), (2, 2)]),
    ("a cut put back", [1, 2, 2], [(4, 2)]),
    ("no cut of nothing", [0, 1, 1], [(2, 2)]),
    ("equal bulk again, a large engine", [1, 7], [(4, 2), (4, 2)]),
    ("5/3 is bulkier than 2/2", [1, 6], [(2, 2), (5, 3)]),
    ("5/3 is bulkier than 2/2 and the earlier", [5, 2], [(5, 3), (2, 2)]),
    ("limit 1 before a bulkier one", [5, 5], [(6, 2), (3, 1)]),
    ("two layings put back", [6, 5], [(5, 1), (3, 1), (3, 1)]),
    ("two cuts and a laying reach limit 3", [1, 1, 2], [(4, 3)]),
    ("limit 3 and four engines needed", [1, 1, 1, 1], [(4, 3)]),
]
WIDE = 2**64 - 1
# refusals, each by one fault
REFUSALS = [
    ("3, more watts than fuels", 0, 60, 9, [1, 2], [1], [], []),
    ("3, more fuels than watts", 0, 60, 9, [1], [1, 2], [], []),
    ("3, more limits than energies", 0, 60, 9, [1], [1], [5], [1, 2]),
    ("3, more energies than limits", 0, 60, 9, [1], [1], [5, 5], [1]),
    ("8, no engine", 0, 60, 9, [], [], [], []),
    ("8, no engine but a delivery", 0, 60, 9, [], [], [5], [1]),
    ("7, a 13th engine", 0, 60, 9, [1] * 13, [1] * 13, [], []),
    ("7, a 38th delivery", 0, 60, 9, [1], [1], [1] * 38, [1] * 38),
    ("7, 64 deliveries", 0, 60, 9, [1], [1], [1] * 64, [1] * 64),
    ("9, a table of no number", 0, 60, 9, [1], [1], [5], [1], 0),
    ("9, a table a number short", 0, 60, 9, [1, 1], [1, 1], [5, 5], [1, 1], 3),
    ("9, a table a number long", 0, 60, 9, [1, 1], [1, 1], [5, 5], [1, 1], 5),
    ("9, a table of 444 numbers for one", 0, 60, 9, [1], [1], [5], [1], 444),
    ("9, a table of 768 numbers for 37 on 12", 0, 60, 9, [1] * 12, [1] * 12, [1] * 37, [1] * 37, 768),
    ("9, a spare list a number long", 0, 60, 9, [1], [1], [5], [1], 1, 2),
    ("9, a spare list a number short", 0, 60, 9, [1, 1], [1, 1], [5], [1], 2, 1),
    ("6 at 1, minutes 0", 0, 0, 9, [1], [1], [], []),
    ("6 at 1, minutes 10081", 0, 10081, 9, [1], [1], [], []),
    ("6 at 1, the widest minutes", 0, WIDE, 9, [1], [1], [], []),
    ("6 at 1, minutes 0 as shortest", 1, 0, 9, [1], [1], [], []),
    ("6 at 1, allowance", 0, 60, MOST + 1, [1], [1], [], []),
    ("6 at 1, the widest allowance", 0, 60, WIDE, [1], [1], [1], [1]),
    ("6 at 2, watts of engine 1", 0, 60, 9, [5000001], [1], [], []),
    ("6 at 2, the widest watts", 0, 60, 9, [WIDE], [1], [1], [1]),
    ("6 at 2, the widest fuel", 0, 60, 9, [1], [WIDE], [1], [1]),
    ("6 at 3, fuel of engine 2", 0, 60, 9, [1, 1], [1, MOST + 1], [], []),
    ("6 at 4, energy 0 of delivery 1", 0, 60, 9, [1, 1], [1, 1], [0], [1]),
    ("6 at 3, the widest energy", 0, 60, 9, [1], [1], [WIDE], [1]),
    ("6 at 3, energy 1000000001", 0, 60, 9, [1], [1], [MOST + 1], [1]),
    ("6 at 5, limit 13 of delivery 2", 0, 60, 9, [1, 1], [1, 1], [1, 2], [1, 13]),
    ("6 at 5, limit 0 of delivery 2", 0, 60, 9, [1, 1], [1, 1], [1, 2], [1, 0]),
    ("6 at 3, the widest limit", 0, 60, 9, [1], [1], [1], [WIDE]),
    ("6 at 50, delivery 37 behind 12 engines", 0, 60, 9, [1] * 12, [1] * 12, [1] * 37, [1] * 36 + [0]),
]
# two faults at once: the order 3, 8, 7, 9, 6, and for 6 the places from the front
ORDER = [
    ("3 before 8", 0, 60, 9, [], [1], [], []),
    ("3 before 7", 0, 60, 9, [1] * 13, [1] * 12, [], []),
    ("3 before 9", 0, 60, 9, [1, 2], [1], [], [], 5),
    ("3 before 6", 0, 0, 9, [1], [1], [5], []),
    ("8 before 7", 0, 60, 9, [], [], [1] * 38, [1] * 38),
    ("8 before 9", 0, 60, 9, [], [], [5], [1], 1),
    ("8 before 6", 0, 0, 9, [], [], [0], [1]),
    ("7 before 9", 0, 60, 9, [1] * 13, [1] * 13, [5], [1], 12, 12),
    ("7 before 9, deliveries", 0, 60, 9, [1], [1], [5] * 38, [1] * 38, 37),
    ("7 before 6", 0, 0, 9, [1] * 13, [1] * 13, [], []),
    ("7 before 6, deliveries", 0, 60, 9, [1], [1], [0] * 38, [1] * 38),
    ("9 before 6, the table", 0, 0, 9, [1], [1], [5], [1], 2),
    ("9 before 6, the spare list", 0, 60, 9, [5000001], [1], [], [], 0, 12),
    ("6 at 1 before 2", 0, 10081, 9, [5000001], [1], [], []),
    ("6 at 1 before 3, allowance", 0, 60, MOST + 1, [1], [1], [0], [1]),
    ("6 at 2 before 3", 0, 60, 9, [1, 5000001], [MOST + 1, 1], [], []),
    ("6 at 3 before 4", 0, 60, 9, [1, 5000001], [1, 1], [0], [1]),
    ("6 at 4 before 5", 0, 60, 9, [1, 1], [1, 1], [1, 0], [13, 1]),
]


# eight spans of each of two engines in turn, and eight of each of twelve: of 1 to 96 minutes, and of 20
MIXED = [(1 + k % 2, 6 * (k // 2), 6 * (k // 2) + 1 + k % 2) for k in range(16)]
UNEVEN = [(1 + k % 12, 1000 * (k // 12), 1000 * (k // 12) + 1 + k) for k in range(96)]
EVEN = [(1 + k % 12, 1000 * (k // 12), 1000 * (k // 12) + 20) for k in range(96)]
# K1's capacities: a title, mode, minutes, watts, energies (all of limit 1), the spans, and what has to come of it: the word, minutes and
# spare. An engine of 60 watts gives 1 Wh for each minute in which it runs.
QUIET = [
    ("a span at 0", 0, 60, [60], [50], [(1, 0, 10)], ("found", 60, [0])),
    ("a span at 0, 1 Wh too much", 0, 60, [60], [51], [(1, 0, 10)], ("none", 60, None)),
    ("a span of minute 0 alone", 0, 60, [60], [1], [(1, 0, 1)], ("found", 60, [58])),
    ("a span up to T", 0, 60, [60], [1], [(1, 50, 60)], ("found", 60, [49])),
    ("a span of the last minute alone", 0, 60, [60], [1], [(1, 59, 60)], ("found", 60, [58])),
    ("a span from T on", 0, 60, [60], [60], [(1, 60, 70)], ("found", 60, [0])),
    ("a span across T", 0, 60, [60], [1], [(1, 55, 65)], ("found", 60, [54])),
    ("a span beyond T, up to the last minute", 0, 60, [60], [60], [(1, 61, 10080)], ("found", 60, [0])),
    ("a span between", 0, 60, [60], [1], [(1, 20, 23)], ("found", 60, [56])),
    ("two spans that touch", 0, 60, [60], [1], [(1, 10, 20), (1, 20, 30)], ("found", 60, [39])),
    ("two spans that touch, the later first", 0, 60, [60], [1], [(1, 20, 30), (1, 10, 20)], ("found", 60, [39])),
    ("a span that touches two", 0, 60, [60], [1], [(1, 0, 10), (1, 20, 30), (1, 10, 20)], ("found", 60, [29])),
    ("eight spans", 0, 60, [60], [1], [(1, 7 * k, 7 * k + 2) for k in range(8)], ("found", 60, [43])),
    ("eight spans that touch, the last first", 0, 60, [60], [1], [(1, 7 * k, 7 * k + 7) for k in range(7, -1, -1)], ("found", 60, [3])),
    ("eight spans of each of two engines", 0, 60, [60, 60], [1], MIXED, ("found", 60, [51, 44])),
    ("96 spans", 0, 10080, [60] * 12, [1], UNEVEN, ("found", 10080, [9735] + [9736 - 8 * i for i in range(1, 12)])),
    ("96 spans as shortest", 1, 10080, [60] * 12, [9000] * 12, EVEN, ("found", 9160, [0] * 12)),
    ("the same span for another engine", 0, 60, [60, 60], [60], [(1, 10, 20), (2, 10, 20)], ("none", 60, None)),
    ("overlapping spans of two engines", 0, 60, [60, 60], [1], [(1, 10, 20), (2, 15, 18)], ("found", 60, [49, 57])),
    ("the second engine's alone", 0, 60, [60, 60], [60], [(2, 10, 20)], ("found", 60, [0, 50])),
    ("the last engine's alone", 0, 60, [60] * 12, [60], [(12, 0, 60)], ("found", 60, [0] + [60] * 10 + [0])),
    ("an engine quiet throughout", 0, 60, [60, 60], [60], [(1, 0, 60)], ("found", 60, [0, 0])),
    ("an engine quiet throughout and longer", 0, 60, [60, 60], [60], [(1, 0, 10080)], ("found", 60, [0, 0])),
    ("an engine quiet throughout by spans that touch", 0, 60, [60, 60], [60], [(1, 30, 60), (1, 0, 30)], ("found", 60, [0, 0])),
    ("an engine quiet but for a minute", 0, 60, [60, 60], [60], [(1, 0, 30), (1, 31, 60)], ("found", 60, [1, 0])),
    ("every engine quiet throughout", 0, 60, [60, 60], [1], [(1, 0, 60), (2, 0, 60)], ("none", 60, None)),
    ("every engine quiet throughout, no deliveries", 0, 60, [60, 60], [], [(1, 0, 60), (2, 0, 60)], ("found", 60, [0, 0])),
    ("every engine quiet throughout, no deliveries, shortest", 1, 60, [60, 60], [], [(1, 0, 60), (2, 0, 60)], ("found", 1, [0, 0])),
    ("rounded down once, 59 watts in 61 of 70 minutes", 0, 70, [59], [59], [(1, 0, 3), (1, 10, 16)], ("found", 70, [0])),
    ("rounded down once, 30 watts in 3 of 4 minutes", 0, 4, [30], [1], [(1, 1, 2)], ("found", 4, [0])),
    ("rounded down once, 30 watts in 1 of 2 minutes", 0, 2, [30], [1], [(1, 1, 2)], ("none", 2, None)),
    ("shortest, the least minute just behind a span", 1, 60, [60], [11], [(1, 10, 40)], ("found", 41, [0])),
    ("shortest, the least minute behind two that touch", 1, 60, [60], [11], [(1, 25, 40), (1, 10, 25)], ("found", 41, [0])),
    ("shortest, the least minute further behind a span", 1, 60, [60], [15], [(1, 10, 40)], ("found", 45, [0])),
    ("shortest, the least minute just before a span", 1, 60, [60], [10], [(1, 10, 40)], ("found", 10, [0])),
    ("shortest, the least minute before a span", 1, 60, [60], [9], [(1, 10, 40)], ("found", 9, [0])),
    ("shortest, a span at 0", 1, 60, [60], [1], [(1, 0, 40)], ("found", 41, [0])),
    ("shortest, a span up to the last minute but one", 1, 60, [60], [1], [(1, 0, 59)], ("found", 60, [0])),
    ("shortest, none for a span up to MINUTES", 1, 60, [60], [1], [(1, 0, 60)], ("none", 60, None)),
    ("shortest, in one engine's span while another runs", 1, 60, [60, 60], [25, 10], [(1, 10, 40)], ("found", 25, [0, 0])),
    ("shortest, in the second engine's span", 1, 60, [60, 60], [5, 20], [(2, 5, 50)], ("found", 20, [0, 0])),
    ("shortest, in two spans while a third engine runs", 1, 60, [60, 60, 60], [30], [(1, 0, 60), (3, 10, 40)], ("found", 30, [0, 0, 10])),
    ("shortest, all engines quiet at once", 1, 60, [60, 60], [12, 12], [(1, 10, 40), (2, 10, 40)], ("found", 42, [0, 0])),
    ("shortest, spans with a minute between them", 1, 60, [60], [3], [(1, 0, 9), (1, 10, 19), (1, 20, 29), (1, 30, 39)], ("found", 30, [0])),
    ("shortest, a span beyond the least minute", 1, 10080, [60], [60], [(1, 10079, 10080)], ("found", 60, [0])),
    ("shortest, the whole week but its last minute", 1, 10080, [60], [1], [(1, 0, 10079)], ("found", 10080, [0])),
]
EIGHT = [(1, 10 * k, 10 * k + 5) for k in range(8)]
# refusals of spans for two engines and two deliveries, each by one fault; a list of numbers is taken as it stands
QUIET_REFUSALS = [
    ("3, a list of one number", [1]),
    ("3, a list of two numbers", [1, 0]),
    ("3, a list of four numbers", [1, 0, 5, 2]),
    ("3, a list of five numbers", [1, 0, 5, 2, 0]),
    ("3, a number behind 96 spans", [1, 0, 5] * 96 + [1]),
    ("6, FROM and TO above 10080", [(1, 10081, 10082)]),
    ("6, TO 10081", [(1, 0, 10081)]),
    ("6, FROM 10081", [(1, 10081, 10080)]),
    ("6, the widest FROM", [(1, WIDE, 5)]),
    ("6, the widest TO", [(1, 0, WIDE)]),
    ("6, TO 5 modulo 2^32", [(1, 0, 2**32 + 5)]),
    ("6, a later span", [(1, 0, 5), (2, 0, 5), (1, 5, 10081)]),
    ("10, engine 0", [(0, 0, 5)]),
    ("10, the engine count and 1", [(3, 0, 5)]),
    ("10, engine 13", [(13, 0, 5)]),
    ("10, the widest engine", [(WIDE, 0, 5)]),
    ("10, engine 1 modulo 2^32", [(2**32 + 1, 0, 5)]),
    ("10, a later span", [(1, 0, 5), (2, 0, 5), (3, 0, 5)]),
    ("11, FROM is TO", [(1, 5, 5)]),
    ("11, FROM and TO 0", [(1, 0, 0)]),
    ("11, FROM and TO 10080", [(1, 10080, 10080)]),
    ("11, FROM above TO", [(1, 6, 5)]),
    ("11, FROM 10080", [(1, 10080, 0)]),
    ("11, the same span twice", [(1, 5, 9), (1, 5, 9)]),
    ("11, a minute in common, the later behind", [(1, 5, 9), (1, 8, 12)]),
    ("11, a minute in common, the later before", [(1, 5, 9), (1, 2, 6)]),
    ("11, a span in an earlier one", [(1, 5, 9), (1, 6, 8)]),
    ("11, a span in an earlier one, from its FROM", [(1, 5, 9), (1, 5, 6)]),
    ("11, a span in an earlier one, up to its TO", [(1, 5, 9), (1, 8, 9)]),
    ("11, an earlier span in it", [(1, 5, 9), (1, 4, 10)]),
    ("11, an overlap beyond MINUTES", [(1, 5000, 9000), (1, 8999, 10080)]),
    ("11, an overlap with the first of three", [(1, 5, 9), (1, 20, 30), (2, 6, 7), (1, 8, 9)]),
    ("11, an overlap of the second engine", [(1, 5, 9), (2, 5, 9), (2, 8, 12)]),
    ("11, a ninth span", EIGHT + [(1, 80, 85)]),
    ("11, a ninth span, the second engine's between", [x for k in range(9) for x in ((1, 10 * k, 10 * k + 5), (2, 10 * k, 10 * k + 5))]),
    ("11, a ninth span beyond MINUTES", EIGHT + [(1, 10079, 10080)]),
]
# two faults at once: in one span 6, 10, 11; of two spans the first
QUIET_ORDER = [
    ("6 before 10 in one span", [(9, 0, 10081)]),
    ("6 before 10 in one span, FROM", [(0, 10081, 5)]),
    ("6 before 11 in one span", [(1, 10081, 10081)]),
    ("6 before 11 in one span, an overlap", [(1, 0, 5), (1, 4, 10081)]),
    ("6 before 11 in one span, a ninth", EIGHT + [(1, 80, 10081)]),
    ("10 before 11 in one span", [(3, 5, 5)]),
    ("10 before 11 in one span, engine 0", [(0, 9, 5)]),
    ("10 before 11 in one span, twice engine 3", [(3, 0, 5), (3, 0, 5)]),
    ("10 before 6 of a later span", [(3, 0, 5), (1, 0, 10081)]),
    ("11 before 6 of a later span", [(1, 5, 5), (1, 0, 10081)]),
    ("11 before 10 of a later span", [(1, 5, 5), (3, 0, 5)]),
    ("6 before 10 of a later span", [(1, 0, 10081), (3, 0, 5)]),
    ("6 before 11 of a later span", [(1, 0, 10081), (1, 5, 5)]),
    ("10 before 11 of a later span", [(3, 0, 5), (1, 5, 5)]),
]
# a fault in a span, and one elsewhere that comes before it
QUIET_LAST = [
    ("3 before 6", (0, 60, 9, [1], [1], [], []), [1, 10081]),
    ("3 before 8, the quiet list", (0, 60, 9, [], [], [], []), [1]),
    ("3 before 7, the quiet list", (0, 60, 9, [1] * 13, [1] * 13, [], []), [1]),
    ("3 before 9, the quiet list", (0, 60, 9, [1], [1], [5], [1], 3), [1]),
    ("3 before 6, the quiet list and minutes", (0, 0, 9, [1], [1], [], []), [1]),
    ("3 before 10, fuels", (0, 60, 9, [1], [], [], []), [2, 0, 5]),
    ("8 before 10", (0, 60, 9, [], [], [], []), [1, 0, 5]),
    ("7 before 10", (0, 60, 9, [1] * 13, [1] * 13, [], []), [14, 0, 5]),
    ("7 before 11", (0, 60, 9, [1], [1], [1] * 38, [1] * 38), [1, 5, 5]),
    ("9 before 11", (0, 60, 9, [1], [1], [5], [1], 2), [1, 5, 5]),
    ("9 before 10", (0, 60, 9, [1], [1], [5], [1], 1, 2), [2, 0, 5]),
    ("6 at 1 before 10, minutes", (0, 10081, 9, [1], [1], [], []), [2, 0, 5]),
    ("6 at 1 before 11, allowance", (0, 60, MOST + 1, [1], [1], [], []), [1, 5, 5]),
    ("6 at 2 before 11, watts", (0, 60, 9, [5000001], [1], [], []), [1, 5, 5]),
    ("6 at 2 before 6 at 0, fuel", (0, 60, 9, [1], [MOST + 1], [], []), [1, 0, 10081]),
    ("6 at 3 before 10, energy", (0, 60, 9, [1], [1], [0], [1]), [2, 0, 5]),
    ("6 at 4 before 6 at 0, limit", (0, 60, 9, [1], [1], [1, 1], [1, 13]), [1, 10081, 5]),
    ("6 at 4 before 11, limit", (0, 60, 9, [1], [1], [1, 1], [1, 0]), [1, 6, 5]),
]


def flat(spans):
    return [n for span in spans for n in (span if isinstance(span, tuple) else (span,))]


def quiet_calls():
    """K1's sentences, each by calls of its own; what has to come of them is held against the answers here."""
    for title, mode, minutes, watts, energies, spans, told in QUIET:
        count = len(energies)
        call("quiet, " + title, mode, minutes, 100, watts, [MOST] * len(watts), energies, [1] * count, quiet=flat(spans))
        word, at, _, _, left = answer(*CALLS[-1][1:])
        assert told == (word, at, left), (title, word, at, left)
    call("quiet, fuel below what the running minutes give", 0, 60, 9, [60], [7], [7], [1], quiet=[1, 0, 50])
    call("quiet, fuel above what the running minutes give", 0, 60, 9, [60], [11], [11], [1], quiet=[1, 0, 50])
    call("quiet, stopped at a shorter time", 1, 120, 1, [3000, 5000], [MOST] * 2, [5000, 3000], [2, 2], quiet=[2, 10, 34])
    call("quiet, as printed as shortest, 75 minutes", 1, 120, 100, [3000, 5000], [MOST] * 2, [5000, 3000], [2, 2], quiet=[2, 10, 34])
    call("quiet, as printed as shortest, none", 1, 74, 100, [3000, 5000], [MOST] * 2, [5000, 3000], [2, 2], quiet=[2, 10, 34])
    for title, spans in QUIET_REFUSALS:
        call("refused by " + title, 0, 60, 9, [60, 60], [MOST] * 2, [1, 2], [1, 2], quiet=flat(spans))
    for title, spans in QUIET_ORDER:
        call("order, " + title, 0, 60, 9, [60, 60], [MOST] * 2, [1, 2], [1, 2], quiet=flat(spans))
    for title, what, quiet in QUIET_LAST:
        call("order, " + title, *what, quiet=quiet)
    random_quiet_calls()


def random_quiet_calls():
    """Calls with spans at random, from a fixed seed: some overlap, and some are of no engine."""
    draw = random.Random(20261117)
    for i in range(80):
        engines, count, size = draw.randint(1, 4), draw.randint(0, 4), draw.choice([2, 8, 30])
        minutes = draw.choice([5, 20, 60, 61])
        quiet = []
        for _ in range(draw.randint(1, 4)):
            start = draw.randint(0, minutes)
            quiet += [draw.randint(1, engines + (draw.random() < 0.05)), start, start + draw.randint(draw.random() < 0.95, minutes // 3)]
        call(
            f"quiet at random {i + 1}",
            draw.randint(0, 1), minutes, draw.choice([0, 2, 5, 1000]),
            [draw.randint(0, size * 4) * 60 // minutes for _ in range(engines)], [draw.randint(0, size * 4) for _ in range(engines)],
            [draw.randint(1, size) for _ in range(count)], [draw.randint(1, draw.choice([1, 2, 3])) for _ in range(count)], quiet=quiet,
        )


def random_calls():
    """Calls at random, from a fixed seed."""
    draw = random.Random(20261115)
    for i in range(160):
        engines, count, size = draw.randint(1, 5), draw.randint(0, 6), draw.choice([2, 4, 8, 30])
        call(
            f"at random {i + 1}",
            draw.randint(0, 1), draw.choice([60, 61, 120, 10080]), draw.choice([0, 1, 2, 5, 20, 1000]),
            [draw.randint(0, size * 2) for _ in range(engines)], [draw.randint(0, size * 2) for _ in range(engines)],
            [draw.randint(1, size) for _ in range(count)], [draw.randint(1, draw.choice([1, 2, 3, 12])) for _ in range(count)],
        )


def calls():
    for title, capacities, deliveries, allowance, told in PLANS_TO_TRY:
        assert search(capacities, deliveries, allowance)[:2] == told, title
        plan("plans to try, " + title, capacities, deliveries, allowance)
    plan("plans to try, no deliveries as shortest", [3000], [], mode=1)
    plan("plans to try, as printed as shortest, 120 minutes", [3000, 5000], [(5000, 2), (3000, 2)], mode=1, minutes=120)
    plan("as printed as shortest, 60 minutes", [3000, 5000], [(5000, 2), (3000, 2)], mode=1)
    plan("as printed as shortest, 59 minutes", [3000, 5000], [(5000, 2), (3000, 2)], mode=1, minutes=59)
    plan("as printed, just enough tries", [3000, 5000], [(5000, 2), (3000, 2)], 2)
    plan("as printed, a try too few", [3000, 5000], [(5000, 2), (3000, 2)], 1)
    call("capacity, 59 watts for 1 minute", 0, 1, 9, [59], [MOST], [1], [1])
    call("capacity, 60 watts for 1 minute", 0, 1, 9, [60], [MOST], [1], [1])
    call("capacity, fuel below watts", 0, 60, 9, [1000], [4], [5], [1])
    for title, *what in CLOSE_PLANS:
        plan("search, " + title, *what)
    call("shortest, stopped below the plan's minutes", 1, 60, 1, [8, 6], [7, 5], [3, 3], [1, 2])
    call("shortest, found at 18", 1, 30, 1, [18, 10], [8, 4], [7, 1], [3, 2])
    call("shortest, stopped with allowance 0", 1, 61, 0, [2, 5], [3, MOST], [4, 1], [3, 3])
    call("shortest, none at the plan's minutes", 1, 61, 5, [2, 7, 3], [2, MOST, 4], [4, 7], [1, 2])
    for title, *what in REFUSALS:
        call("refused by " + title, *what)
    for title, *what in ORDER:
        call("order, " + title, *what)
    for mode, word in [(0, "fixed"), (1, "shortest")]:
        call(f"the largest numbers as {word}, 10 deliveries", mode, 10080, MOST, [5000000] * 12, [MOST] * 12, [MOST] * 10, [12] * 10)
        call(f"the largest numbers as {word}, more than the capacity", mode, 10080, MOST, [5000000] * 12, [MOST] * 12, [MOST] * 12, [12] * 12)
    plan("37 deliveries to lay, stopped after 2000 tries", [1000] * 12, [(270, 1)] * 37, 2000)
    plan("13 on 12, stopped after 5000 tries", [1000] * 12, [(900, 1)] * 13, 5000)
    plan("7 cut on 12, stopped after 5000 tries", [1000] * 12, [(1600, 2)] * 7, 5000)
    plan("37 deliveries filled straight", [100] * 12, [(32, 2)] * 37, 0)
    plan("37 deliveries as shortest, stopped at a shorter time", [100] * 12, [(32, 1)] * 37, 500, 1, 10080)
    random_calls()
    quiet_calls()


def shown(numbers):
    """A space before each number, equal ones in a row as number*count."""
    runs = ((n, len(list(group))) for n, group in itertools.groupby(numbers))
    return "".join(f" {n}*{times}" if times > 1 else f" {n}" for n, times in runs)


def main():
    calls()
    with open("stdin", "w") as given, open("stdout", "w") as expected:
        for title, mode, minutes, allowance, watts, fuels, energies, limits, quiet, table, spare in CALLS:
            lists = [watts, fuels, energies, limits, quiet]
            numbers = [mode, minutes, allowance] + [len(x) for x in lists] + [table, spare] + list(itertools.chain(*lists))
            given.write(title + "\n" + " ".join(map(str, numbers)) + "\n")
            named = "".join(f", {name}{shown(x)}" for name, x in zip(("watts", "fuels", "energies", "limits", "quiet"), lists))
            expected.write(f"{title}: {('fixed', 'shortest')[mode]} {minutes} {allowance}{named}, lent {table} and {spare}\n")
            word, first, second, pieces, left = answer(mode, minutes, allowance, *lists, table, spare)
            told = re.match(r"(?:refused by|order,) (\d+)(?: at (\d+))?", title)
            if told:
                assert word == "refused" and first == int(told[1]) and second == int(told[2] or 0), title
            cells = shown([7] * table if pieces is None else pieces)
            spares = shown([8] * spare if left is None else left)
            kept = ", behind it changed 0"
            expected.write(f"  {word} {first} {second}, table{cells}{kept}, spare{spares}{kept}\n")


if __name__ == "__main__":
    main()
