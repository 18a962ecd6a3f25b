"""Documents with units that are drawn, changes of them, and their limits."""
import json

from fuzz_lib.documents import concave, keys_of, holders, nested, number
from fuzz_lib.limits import UNIT_LIMITS, UNIT_VERSION

NUMBERS = [-1, 0, 1, 1.0, -0.0, 1e300, 2 ** 63 - 1, 2 ** 63, -2 ** 63, UNIT_LIMITS.amount + 1, UNIT_LIMITS.units + 1, UNIT_LIMITS.price + 1]


def draw_steps(draw, most):
    """The members of a set by steps, of about so many units each: what they add never rises, on both sides of 0 together."""
    falls = sorted((number(draw) for _ in range(draw.randint(0, 5))), reverse=True)
    cut = draw.randint(0, len(falls))
    sold, bought = [-each for each in reversed(falls[:cut])], falls[cut:]
    steps = {side: [[draw.randint(1, most), each] for each in numbers] for side, numbers in (("bought", bought), ("sold", sold))}
    return {side: listed for side, listed in steps.items() if listed or draw.random() < 0.2}


def draw_set(draw, trades, units, sells):
    """A set over some trades, by steps or by values."""
    sales = sum(units[name] for name in trades if name in sells)
    purchases = sum(units[name] for name in trades) - sales
    if draw.random() < 0.7:
        return {"trades": trades, **draw_steps(draw, max(1, *units.values()))}
    low, high = -draw.randint(0, min(sales, 40)), draw.randint(0, min(purchases, 40))
    values, constant = concave(draw, low, high), draw.choice([0, 0, 7, -3])
    return {"trades": trades, "from": low, "values": [value + constant for value in values]}


def draw_firm(draw, name, buys, sells, units):
    own = draw.sample(buys + sells, len(buys + sells))
    sets = [draw_set(draw, trades, units, sells) for trades in nested(draw, own)]
    amounts = [[trade, number(draw)] for trade in own if draw.random() < 0.8]
    if draw.random() < 0.5:  # (so that something goes)
        amounts = [[trade, abs(each) if trade in buys else -abs(each)] for trade, each in amounts]
    firm = {"name": name, "kind": "laminar", "amounts": amounts, "sets": sets[:UNIT_LIMITS.holding]}
    return {member: value for member, value in firm.items() if value or draw.random() < 0.8}


def draw_units(draw):
    """A network of a few firms and trades: with few units, of which all counts can be tried, or with many."""
    firms, count = draw.randint(2, 5), draw.randint(1, 8)
    most = draw.choice([1, 2, 2, 3, 3, 5, 40, 300, 20_000])
    drawn, names = [], [f"F{k}" for k in range(firms)]
    for k in range(count):
        seller, buyer = draw.sample(names, 2)
        trade = {"name": draw.choice(["t", "F", "-", "a."]) + str(k), "seller": seller, "buyer": buyer}
        drawn.append({**trade, "units": draw.randint(1, most)} if draw.random() < 0.8 else trade)
    units = {trade["name"]: trade.get("units", 1) for trade in drawn}
    own = {firm: [[trade["name"] for trade in drawn if trade[end] == firm] for end in ("buyer", "seller")] for firm in names}
    listed = [draw_firm(draw, firm, *own[firm], units) for firm in names]
    return enlarged({"version": UNIT_VERSION, "firms": listed, "trades": drawn}, draw.random() < 0.05)


def draw_chain(draw):
    """Plants, depots and customers, with up to some hundred lanes and some thousands of units on each: something goes."""
    most, trades = draw.choice([20, 300, 5000]), []
    firms = {f"P{k}": ("sold", -10, -90) for k in range(draw.randint(1, 6))}
    firms.update({f"D{k}": ("bought", 0, -15) for k in range(draw.randint(1, 4))})
    firms.update({f"C{k}": ("bought", 200, 40) for k in range(draw.randint(1, 30))})
    for k, firm in enumerate(firms):
        lanes = [(firm, to) for to in firms if firm[0] + to[0] in ("PD", "DC") and draw.random() < 0.6]
        trades += [{"name": f"{seller}-{buyer}", "seller": seller, "buyer": buyer, "units": draw.randint(1, most)} for seller, buyer in lanes]
    listed = []
    for name, (side, first, last) in firms.items():
        sales = [trade["name"] for trade in trades if trade["seller"] == name]
        purchases = [trade["name"] for trade in trades if trade["buyer"] == name]
        adds = sorted((draw.randint(min(first, last), max(first, last)) for _ in range(draw.randint(1, 4))), reverse=True)
        own = purchases if side == "bought" else sales
        sets = [{"trades": own, side: [[draw.randint(1, 2 * most), each] for each in adds]}]
        if name[0] == "D":
            sets.insert(draw.randint(0, 1), {"trades": purchases + sales})
        listed.append({"name": name, "kind": "laminar", "amounts": [[trade, -draw.randint(0, 9)] for trade in sales], "sets": sets})
    return {"version": UNIT_VERSION, "firms": listed, "trades": trades}


def enlarged(document, is_so):
    """The same network with all numbers of firms as many times as large as they may be, where it is to be so."""
    sets = [part for firm in document["firms"] for part in firm.get("sets", [])]
    listed = [(entry, 1) for firm in document["firms"] for entry in firm.get("amounts", [])]
    listed += [(step, 1) for part in sets for side in ("bought", "sold") for step in part.get(side, [])]
    listed += [(part["values"], k) for part in sets if "values" in part for k in range(len(part["values"]))]
    most = max((abs(at[key]) for at, key in listed), default=0)
    for at, key in listed if is_so and most else []:
        at[key] *= UNIT_LIMITS.amount // most
    return document


def make_units(draw, examples):
    """A document with units, and whether it is one to be refused."""
    is_drawn = draw.random() < 0.8 or not examples
    document = (draw_chain if draw.random() < 0.2 else draw_units)(draw) if is_drawn else json.loads(draw.choice(examples))
    turn = draw.randrange(3)
    if turn == 1:
        change_numbers(draw, document)
    if turn == 2 or "arrangement" not in document:
        document["arrangement"] = draw_arrangement(draw, document, {}, {})
    if turn == 2 or "edits" not in document:
        document["edits"] = draw_unit_edits(draw, document)
    return document, turn == 2


def draw_arrangement(draw, document, counts, prices):
    """Units and prices near the given ones, 0 where none is given."""
    units = {trade["name"]: max(0, trade.get("units", 1)) for trade in document["trades"]}  # (numbers may have been changed)
    turned, moved = draw.choice([0, 0.1, 0.5]), draw.choice([0, 0.1, 0.5])

    def near(name, most):
        count = counts.get(name, 0)
        return count if draw.random() >= turned else draw.choice([draw.randint(0, most), max(0, min(count + draw.choice([-1, 1]), most))])

    def price(name):
        most = draw.choice([1, 1, 9, 90]) if draw.random() < moved else 0
        return max(-UNIT_LIMITS.price, min(prices.get(name, 0) + draw.randint(-most, most), UNIT_LIMITS.price))

    on = [[name, near(name, most)] for name, most in units.items()]
    on = [entry for entry in on if entry[1] or draw.random() < 0.1]
    return {"on": draw.sample(on, len(on)), "prices": [[name, price(name)] for name in units]}


def draw_unit_edits(draw, document):
    """Edits of some of a document's trades and firms, with and without units."""
    units = {trade["name"]: max(0, trade.get("units", 1)) for trade in document["trades"]}  # (numbers may have been changed)
    firms, edits = [firm["name"] for firm in document["firms"]], []
    for _ in range(draw.randint(0, 12)):
        word = draw.choice(["admit", "admit", "admit", "admit", "bar", "leave", "join"])
        if word in ("leave", "join"):
            edits += [[word, draw.choice(firms)]] if firms else []
        elif word == "admit" and units and draw.random() < 0.6:
            name = draw.choice([*units])
            edits.append([word, name, draw.choice([0, 1, units[name], draw.randint(0, units[name])]) if units[name] else 0])
        else:
            edits.append([word, draw.choice([*units, "*"])])
    return edits


def change_numbers(draw, document):
    """Changes one to three numbers a little."""
    numbers = [(at, key) for at in holders(document) for key in keys_of(at) if type(at[key]) is int and key != "version"]
    for at, key in draw.sample(numbers, min(len(numbers), draw.randint(1, 3))):
        at[key] += draw.choice([-1, 1, draw.randint(-9, 9)])


def change_units(draw, document):
    """Changes one to three values, to ones like them or to others, and members to others of the same object."""
    for _ in range(draw.randint(1, 3)):
        found = holders(document)
        at = draw.choices(found, [len(each) or 0.1 for each in found])[0]
        if isinstance(at, dict) and draw.random() < 0.2:
            words = ["units", "bought", "sold", "from", "values", "trades", "amounts", "sets", "kind", "note", "keep", "rows", "on", "prices"]
            at[draw.choice(words)] = draw.choice([1, 0, [], [[1, 2]], [[2, 1], [1, 2]], [0, 3, 4], None, "table", draw.choice(NUMBERS)])
        elif len(at):
            change_value(draw, at, draw.choice([*keys_of(at)]))


def change_value(draw, at, key):
    old = at[key]
    if type(old) is int and draw.random() < 0.6:
        most = draw.choice([UNIT_LIMITS.amount, UNIT_LIMITS.units, UNIT_LIMITS.farthest, UNIT_LIMITS.price])
        at[key] = draw.choice([old + 1, old - 1, -old, 0, most, most + 1, -most, -most - 1])
    elif isinstance(at, list) and draw.random() < 0.4:
        draw.choice([draw.shuffle, lambda items: items.pop(key), lambda items: items.append(old)])(at)
    elif draw.random() < 0.3:
        del at[key]
    else:
        at[key] = draw.choice([None, True, [], {}, [[]], {"note": 0}, [old, old], {"a": old}, *NUMBERS, "", "t0", "F0", "\0", "x" * 33])


def at_unit_limit(draw, document):
    """Takes a list or a number of a drawn document to its limit, or one beyond."""
    limits, more, sign = UNIT_LIMITS, draw.choice([0, 1]), draw.choice([-1, 1])
    firms, trades = document["firms"], document["trades"]
    empty = {"trades": []}

    def lanes(counts):
        """So many lanes more, with so many units each."""
        firms.extend({"name": name, "kind": "laminar"} for name in ("S..", "B.."))
        trades.extend({"name": f"t{k}..", "seller": "S..", "buyer": "B..", "units": count} for k, count in enumerate(counts))

    def with_set(**members):
        firms.append({"name": "set..", "kind": "laminar", "sets": [{"trades": [], **members}]})

    def with_sets(count):
        firms.append({"name": "sets..", "kind": "laminar", "sets": [empty] * count})

    def holding(count):
        lanes([1])
        firms[-1]["sets"] = [{"trades": ["t0.."]}, *[empty] * draw.randint(0, 2), *[{"trades": ["t0.."]}] * (count - 1)]

    def sets_so_far():
        return sum(len(firm.get("sets", [])) for firm in firms)

    def rest():
        return limits.units - sum(trade.get("units", 1) for trade in trades)

    def arranged(on, price=0):
        document["arrangement"] = {"on": on, "prices": [[trade["name"], price] for trade in trades]}

    def edited(edits):
        document["edits"] = edits

    side, some = draw.choice(["bought", "sold"]), draw.choice(trades or [{"name": "none"}])
    draw.choice([
        lambda: firms.extend({"name": f"F{k}..", "kind": "laminar"} for k in range(limits.firms + more - len(firms))),
        lambda: lanes([1] * (limits.trades + more - len(trades))),
        lambda: lanes([limits.units + more]),
        lambda: lanes([rest() + more]),
        lambda: lanes([1, 2, rest() - 3 + more]),
        lambda: with_sets(limits.sets + more - sets_so_far()),
        lambda: (with_sets(limits.sets // 2), firms.insert(0, {**firms.pop(), "name": "more.."}), with_sets(limits.sets + more - sets_so_far())),
        lambda: holding(limits.holding + more),
        lambda: with_set(**{side: [[1, 0]] * (limits.steps + more)}),
        lambda: with_set(**{side: [[limits.units + more, 0]]}),
        lambda: with_set(**{side: [[1, sign * (limits.amount + more)]]}),
        lambda: with_set(**{"from": -draw.choice([0, limits.farthest]), "values": [0] * (limits.values + more)}),
        lambda: with_set(**{"from": -(limits.farthest + more), "values": [0] * (limits.farthest + 2)}),
        lambda: with_set(**{"from": sign * (limits.farthest + more), "values": [0] * draw.choice([1, limits.values])}),
        lambda: with_set(**{"from": 0, "values": [sign * (limits.amount + more)]}),
        lambda: arranged([[some["name"], some.get("units", 1) + more]]),
        lambda: arranged([[some["name"], -more]]),
        lambda: arranged([], sign * (limits.price + more)),
        lambda: (lanes([1] * (limits.trades - len(trades))), arranged([[trade["name"], more] for trade in trades])),
        lambda: edited([["admit", some["name"], some.get("units", 1) + more]]),
        lambda: edited([["admit", some["name"], -more]]),
        lambda: edited([["bar", "*"]] * (limits.edits + more)),
        lambda: (lanes([1] * (limits.trades - len(trades))), edited([["bar", "*"]] * (limits.edited // limits.trades + more))),
        lambda: edited([draw.choice([["bar", some["name"], 0], ["admit", "*", 0], ["leave", "*"], ["admit"], ["admit", some["name"], 0, 0]])]),
        lambda: document.update(version=UNIT_VERSION + more),
    ])()
