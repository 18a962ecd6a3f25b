"""Random tables of firms and lanes for tools/lanes_test, and what they mean, found a second time: the greatest surplus,
by paths in a graph that is made of what was drawn and not of what was read.
"""
import csv
import io
from fractions import Fraction

from trading_networks.tables import Form, digits

LETTERS = "abcńłøßéŐЖ北 -_.'()&;,\"=@+"


def drawn_name(draw, taken):
    while True:
        name = " ".join("".join(draw.choice(LETTERS) for _ in range(draw.randint(1, 12))).split())
        if name and name not in taken and name != "*":
            taken.add(name)
            return name


def drawn_steps(draw, lots, rate, sign, places):
    """Steps over so many lots: pairs of lots and the amount for a unit; those of costs rise, those of values fall."""
    steps, left = [], lots
    while left > 0 and len(steps) < 3:
        taken = left if len(steps) == 2 else draw.randint(1, left)
        steps.append((taken, rate))
        left -= taken
        rate += sign * Fraction(draw.randint(0, 20 * 10 ** places), 10 ** places)
    return steps


def drawn_network(draw):
    """Firms and lanes as tuples: role, name, capacity in lots or none, steps; and source, target, capacity, steps."""
    lot, places, taken = draw.choice((1, 5, 20, Fraction(1, 2), Fraction(5, 2))), draw.choice((0, 1, 2, 3)), set()

    def schedule(most, low, high, sign):
        lots = draw.randint(0, most)
        rate = Fraction(draw.randint(low * 10 ** places, high * 10 ** places), 10 ** places)
        return lots, drawn_steps(draw, max(lots, 1), rate, sign, places)

    large = draw.choice((1, 1, 1, 2))
    roles = [role for role, most in (("sells", 4), ("makes", 3), ("passes on", 3), ("buys", 4))
             for _ in range(draw.randint(1, most * large))]
    firms = [(role, drawn_name(draw, taken), *(schedule(8, 100, 300, -1) if role == "buys" else schedule(6, 0, 60, 1)))
             for role in roles]
    lanes, pairs = [], set()
    for _ in range(draw.randint(large * large * 10 - 9, large * large * 25)):
        source = draw.choice([k for k, firm in enumerate(firms) if firm[0] != "buys"])
        target = draw.choice([k for k, firm in enumerate(firms) if firm[0] != "sells"])
        if source != target and (source, target) not in pairs:
            pairs.add((source, target))
            lanes.append((source, target, *schedule(2 + 2 * large, 0, 20, 1)))
    return lot, firms, lanes


def drawn_tables(draw, lot, firms, lanes):
    """Both tables as text in a drawn form."""
    form = draw.choice((Form(), Form(";", ","), Form(";", "."), Form("\t", ","), Form(",", ",")))
    form = Form(form.separator, form.decimal, draw.choice(("\n", "\r\n")), draw.random() < 0.3)
    decimal = "comma" if form.decimal == "," and form.separator == "," else None
    steps = [f"{name} {k}" for k in (1, 2, 3) for name in ("quantity", "at")]
    rows = [["firm", "role", "capacity", *steps]]
    rows += [[name, role, lots * lot, *cells_of_steps(draw, lots, stages, lot)] for role, name, lots, stages in firms]
    ways = [["from", "to", "capacity", *steps]]
    ways += [[firms[source][1], firms[target][1], lots * lot, *cells_of_steps(draw, lots, stages, lot)]
             for source, target, lots, stages in lanes]
    return text_of(form, rows), text_of(form, ways), decimal


def cells_of_steps(draw, lots, stages, lot):
    cells = [cell for taken, rate in stages for cell in (taken * lot, rate)]
    if draw.random() < 0.5 or sum(taken for taken, _ in stages) < lots:
        cells[-2] = ""
    return cells


def text_of(form, rows):
    """A table without the guard of `written`, since these texts are read again."""
    out = io.StringIO(newline="")
    writer = csv.writer(out, delimiter=form.separator, lineterminator=form.line_end)
    for row in rows:
        writer.writerow([cell if isinstance(cell, str) else digits(Fraction(cell)).replace(".", form.decimal)
                         for cell in row])
    return ("\ufeff" if form.mark else "") + out.getvalue()


def best_surplus(lot, firms, lanes):
    """The greatest surplus, by paths of least cost one after another."""
    arcs = []  # from, to, room, cost; each is followed by its reverse

    def join(source, target, lots, stages, sign=1):
        for taken, rate in stages:
            taken = min(taken, lots)
            lots -= taken
            arcs.append([source, target, taken, sign * rate * lot])
            arcs.append([target, source, 0, -sign * rate * lot])

    for k, (role, _, lots, stages) in enumerate(firms):
        if role == "sells":
            join("source", (k, "out"), lots, stages)
        elif role == "buys":
            join((k, "in"), "sink", lots, stages, -1)
        else:
            join((k, "in"), (k, "out"), lots, stages)
    for source, target, lots, stages in lanes:
        join((source, "out"), (target, "in"), lots, stages)
    surplus = Fraction(0)
    while True:
        path, cost = least_path(arcs)
        if path is None or cost >= 0:
            return surplus
        lots = min(arcs[k][2] for k in path)
        surplus -= lots * cost
        for k in path:
            arcs[k][2] -= lots
            arcs[k ^ 1][2] += lots


def least_path(arcs):
    """A path of least cost from the source to the sink over arcs with room, as their indices, and its cost."""
    costs, last, moved = {"source": Fraction(0)}, {}, True
    while moved:
        moved = False
        for k, (source, target, room, cost) in enumerate(arcs):
            if room > 0 and source in costs and (target not in costs or costs[source] + cost < costs[target]):
                costs[target], last[target], moved = costs[source] + cost, k, True
    if "sink" not in costs:
        return None, None
    path, at = [], "sink"
    while at != "source":
        path.append(last[at])
        at = arcs[last[at]][0]
    return path, costs["sink"]


SIZES = {120: ((8, 6, 6, 16), (30, 30, 60), 3_048), 2_000: ((60, 40, 60, 200), (500, 500, 1_000), 90_000)}
"""Of a drawn chain by its lanes: how many firms of each role, how many lanes from each to the next, and how much goes."""


def chain_tables(draw, size):
    """Both tables of a chain of works, plants, depots and customers; of 2,000 lanes all have 400,000 units."""
    counts, ways, amount = SIZES[size]
    names = [[f"{word} {k}" for k in range(1, count + 1)]
             for word, count in zip(("Works", "Plant", "Depot", "Customer"), counts)]

    def rate(low, high):
        return f"{draw.randint(low * 100, high * 100) / 100:.2f}"

    kinds = (("sells", 100, 60, (400, 460), (461, 500)), ("makes", 110, 80, (60, 80), (81, 99)),
             ("passes on", 120, 50, (4, 6), (7, 9)), ("buys", 100, 50, (700, 760), (560, 690)))
    firms = []
    for listed, (role, part, first, *rates) in zip(names, kinds):
        most = amount * part // 100 // len(listed)
        firms += [[name, role, most, most * first // 100, rate(*rates[0]), "", rate(*rates[1])] for name in listed]
    lanes = []
    for sources, targets, count in zip(names, names[1:], ways):
        pairs = sorted(draw.sample([(source, target) for source in sources for target in targets], count))
        for pair in pairs:
            most = draw.randint(100, 300) if size == 2_000 else draw.randint(60, 250)
            lanes.append([*pair, most, most // 2, rate(5, 40), "", rate(41, 55)])
    steps = ["capacity", "quantity 1", "at 1", "quantity 2", "at 2"]
    return tuple("\n".join(",".join(map(str, row)) for row in (head, *rows)) + "\n"
                 for head, rows in ((["firm", "role", *steps], firms), (["from", "to", *steps], lanes)))
