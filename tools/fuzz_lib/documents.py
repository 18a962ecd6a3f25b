"""Documents that are drawn, and changes of them."""
import json

from fuzz_lib.limits import LIMITS, NUMERATOR, OVER, PRICE, SETS, UNIT_VERSION
from fuzz_lib.network import laminar_worth

NO = ("better", "impossible", "exchange_fails", "cycle", "drops", "blocks", "invalid")
CLAIMS = ("equilibrium", "accepted", "prices", "solved", "completes", *NO[:-1])


def number(draw):
    most = draw.choice((3, 9, 9, 99))
    return draw.randint(-most, most)


def concave(draw, least, most):
    """Numbers from a net count of `least` to `most`, each step no more than the one before."""
    steps = sorted((number(draw) for _ in range(most - least)), reverse=True)
    return [sum(steps[:k]) for k in range(len(steps) + 1)]


def nested(draw, trades):
    """Sets of trades that don't cross."""
    if not trades or draw.random() < 0.3:
        return []
    cut = draw.randint(0, len(trades))
    return [trades] * draw.choice([0, 1, 1, 2]) + nested(draw, trades[:cut]) + (nested(draw, trades[cut:]) if cut else [])


def draw_laminar(draw, buys, sells):
    own = draw.sample(buys + sells, len(buys + sells))
    sets = []
    for trades in nested(draw, own):
        least = -draw.randint(0, sum(t in sells for t in trades))
        most = draw.randint(0, sum(t in buys for t in trades))
        sets.append({"trades": trades, "from": least, "values": concave(draw, least, most)})
    return {"amounts": [[t, number(draw)] for t in own if draw.random() < 0.8], "sets": sets[:SETS]}


def draw_table(draw, buys, sells):
    """A table of few rows, or one of the worths of a laminar firm, mostly unchanged."""
    names = buys + sells
    bundles = [[t for k, t in enumerate(names) if x >> k & 1] for x in range(1 << len(names))]
    if draw.random() < 0.4:
        return {"rows": [[x, number(draw)] for x in draw.sample(bundles, draw.randint(0, min(5, len(bundles))))]}
    firm = draw_laminar(draw, buys, sells)
    rows = [[x, laminar_worth(firm, [t for t in x if t in buys], [t for t in x if t in sells])] for x in bundles]
    rows = [row for row in rows if row[1] is not None]
    if draw.random() < 0.3:
        draw.choice(rows)[1] += draw.choice([-1, 1])
    return {"rows": draw.sample(rows, len(rows))}


def draw_firm(draw, name, buys, sells):
    kind = draw.choice(["table", "laminar", "middleman", "dealer"])
    if kind == "table" and len(buys + sells) > 6:
        kind = "laminar"
    firm = {"name": name, "kind": kind}
    if kind == "table":
        firm.update(draw_table(draw, buys, sells))
    elif kind == "laminar":
        firm.update(draw_laminar(draw, buys, sells))
    elif kind == "middleman":
        firm["costs"] = [[t, number(draw)] for t in buys if draw.random() < 0.8]
        firm["gains"] = [[t, number(draw)] for t in sells if draw.random() < 0.8]
        firm["keep"] = draw.choice([None, number(draw)])
    else:
        firm["pairs"] = [[b, s, number(draw)] for b in buys for s in sells if draw.random() < 0.8]
    return firm


def draw_document(draw):
    """A network of which all bundles can be tried."""
    return draw_network(draw, draw.choice([*LIMITS]), draw.randint(2, 5), draw.randint(1, 8))


def draw_large(draw):
    """A network of more trades, and mostly of more firms: some have as many own trades as a firm may have."""
    version = draw.choice([*LIMITS, max(LIMITS)])
    return draw_network(draw, version, draw.choice([2, 3, 6, 20, 60]), draw.choice([20, 60, 120, 180]))


def draw_network(draw, version, firms, trades):
    """A network of so many firms and of at most so many trades, within the limits of a version."""
    limits, drawn, count = LIMITS[version], [], {f"F{k}": 0 for k in range(firms)}
    for k in range(min(trades, limits.most)):
        open_firms = [firm for firm, own in count.items() if own < limits.own]
        if len(open_firms) < 2:
            break
        seller, buyer = draw.sample(open_firms, 2)
        drawn.append({"name": draw.choice(["t", "F", "-", "a."]) + str(k), "seller": seller, "buyer": buyer})
        count[seller], count[buyer] = count[seller] + 1, count[buyer] + 1
    own = {firm: [[trade["name"] for trade in drawn if trade[end] == firm] for end in ("buyer", "seller")] for firm in count}
    document = {"version": version, "firms": [draw_firm(draw, firm, *own[firm]) for firm in count], "trades": drawn}
    return enlarged(document, limits.amount) if draw.random() < 0.05 else document


def numbers_of(firm):
    """The lists and members of a firm that have its numbers, each with where one stands."""
    return [(at, key) for at in holders(firm) for key in keys_of(at) if type(at[key]) is int and key != "from"]


def enlarged(document, most):
    """The same network with all numbers of firms as many times as large as they may be."""
    numbers = [each for firm in document["firms"] for each in numbers_of(firm)]
    times = most // max((abs(at[key]) for at, key in numbers), default=1) if any(at[key] for at, key in numbers) else 1
    for at, key in numbers:
        at[key] *= times
    return document


def add_parts(draw, document, on, prices):
    """An arrangement, an outcome and edits, near the given trades and prices."""
    names = [trade["name"] for trade in document["trades"]]
    turned = draw.choice([0, 0.2, 0.5])
    over = draw.choice([1, 1, 2, 3, 100]) if all(abs(price) < 10 ** 9 for price in prices.values()) else 1

    def some():
        return [name for name in names if (name in on) != (draw.random() < turned)]

    def near(name, scale, most):
        most = draw.choice((0, 0, 0, 0, 1, 1, 9))
        price = scale * prices.get(name, 0) + (draw.randint(-most, most) if most else 0)
        return [name, max(-most, min(price, most))]

    document["arrangement"] = {"on": some(), "prices": [near(name, 1, PRICE) for name in names]}
    document["outcome"] = {"over": over, "contracts": [near(name, over, NUMERATOR) for name in some()]}
    document["edits"] = [draw_edit(draw, names, document["firms"]) for _ in range(draw.randint(0, 12))]


def draw_edit(draw, names, firms):
    """An edit of one or all of the trades, or of a firm."""
    word = draw.choice(["admit", "admit", "admit", "bar", "bar", "leave", "join"])
    if word in ("leave", "join") and firms:
        return [word, draw.choice(firms)["name"]]
    return [draw.choice(["admit", "bar"]) if word in ("leave", "join") else word, draw.choice([*names, "*"])]


def usable_after(document, edits):
    """The names of the trades that are admitted after some edits, and of which both firms are there."""
    ends = {trade["name"]: {trade["seller"], trade["buyer"]} for trade in document["trades"]}
    admitted, away = set(), set()
    for word, name in edits:
        if word in ("admit", "bar"):
            (admitted.update if word == "admit" else admitted.difference_update)(ends if name == "*" else [name])
        else:
            (away.add if word == "leave" else away.discard)(name)
    return {name for name in admitted if not ends[name] & away}


def holders(value):
    """The lists and objects of a document, itself among them."""
    found = [value]
    for holder in found:
        found += [each for each in (holder.values() if type(holder) is dict else holder) if type(each) in (dict, list)]
    return found


def keys_of(holder):
    return holder if type(holder) is dict else range(len(holder))


def change(draw, document, small):
    """Changes one to three values, each as likely as any other: to one like it, or to one that has to be refused."""
    found = holders(document)
    for _ in range(draw.randint(1, 3)):
        at = draw.choices(found, [*map(len, found)])[0]
        change_at(draw, document, at, draw.choice([*keys_of(at)]), small)


def change_at(draw, document, at, key, small):
    old = at[key]
    if small and type(old) is int:
        limits = limits_of(document)
        at[key] = old + draw.choice([-1, 1, -old, draw.randint(-9, 9), limits.amount - old])
    elif small and isinstance(at, list) and len(at) > 1:
        draw.choice([draw.shuffle, lambda items: items.pop(key)])(at)
    elif not small and draw.random() < 0.3:
        del at[key]
    elif not small:
        numbers = [-1, 0, 1, 1.0, -0.0, 1e300, 2 ** 63 - 1, 2 ** 63, -2 ** 63, limits_of(document).amount + 1, 10 ** 14 + 1]
        texts = ["", "S", "\u00e9", "\0", "x" * 33]
        at[key] = draw.choice([None, True, [], {}, [[]], {"note": 0}, [old, old], {"a": old}, *numbers, *texts])


def limits_of(document):
    """The limits of a document's version, those of the first where it has none."""
    version = document.get("version") if isinstance(document, dict) else None
    return LIMITS[version if type(version) is int and version in LIMITS else 1]


def at_limit(draw, document):
    """Takes a list or a number of a drawn document to what its version allows, or one beyond."""
    limits, more = limits_of(document), draw.choice([0, 1])
    firms, trades, sign = document["firms"], document["trades"], draw.choice([-1, 1])

    def bought(count, own):
        """So many trades more, between firms that have so many each."""
        for k in range(count):
            pair = [f"{side}{k // own}.." for side in "SB"]
            firms.extend({"name": name, "kind": "laminar"} for name in pair if k % own == 0)
            trades.append({"name": f"t{k}..", "seller": pair[0], "buyer": pair[1]})

    def with_set(**member):
        firms.append({"name": "set..", "kind": "laminar", "sets": [{"trades": [], "from": 0, "values": [0], **member}]})

    def claimed(answer, **members):
        document["claim"] = {"answer": answer, **members}

    def signed(**member):
        document["outcome"] = {"over": 1, "contracts": [], **member}

    some = trades[0]["name"] if trades else "none"
    draw.choice([
        lambda: firms.extend({"name": f"F{k}..", "kind": "laminar"} for k in range(limits.most + more - len(firms))),
        lambda: bought(limits.most + more - len(trades), limits.own),
        lambda: bought(limits.own + more, limits.own + more),
        lambda: firms.append({"name": "sets..", "kind": "laminar", "sets": [{"trades": [], "from": 0, "values": [0]}] * (SETS + more)}),
        lambda: with_set(**{"from": -(limits.values // 2), "values": [0] * (limits.values + more)}),
        lambda: with_set(**{"from": sign * (limits.farthest + more), "values": [0] * (limits.farthest + 2)}),
        lambda: with_set(values=[sign * (limits.amount + more)]),
        lambda: firms.append({"name": "keep..", "kind": "middleman", "keep": sign * (limits.amount + more)}),
        lambda: document.update(edits=[["bar", "*"]] * (limits.edits + more)),
        lambda: document.update(arrangement={"on": [], "prices": [[trade["name"], sign * (PRICE + more)] for trade in trades]}),
        lambda: signed(over=OVER + more),
        lambda: signed(contracts=[[some, sign * (NUMERATOR + more)]]),
        lambda: claimed("cycle", cost=-1, nodes=[None] * (limits.nodes + more)),
        lambda: claimed("blocks", contracts=[], over=limits.claimed_over + more),
        lambda: claimed("none", over=1, plan=[[firms[0]["name"], [], limits.claimed_over + more]]),
    ])()


def spoil(draw, text):
    """Changes a byte or two of a text, or cuts it."""
    at = draw.randrange(len(text))
    changed = text[:at] + bytes([draw.randrange(256)]) + text[at + 1:]
    return draw.choice([text[:at], changed, text[:at] + text[at:at + 9] + text[at:], text + text[at:]])


def small_examples(folder):
    """The files of the examples that are small enough to be asked thousands of times."""
    return [path for path in sorted(folder.glob("*.json")) if path.stat().st_size <= 20_000]


def example_texts(folder):
    """The texts of these: of versions 1 to 3, and of those whose trades have units."""
    texts = [path.read_text() for path in small_examples(folder)]
    counted = [text for text in texts if json.loads(text)["version"] == UNIT_VERSION]
    return [text for text in texts if text not in counted], counted


def make(draw, examples):
    """A document of versions 1 to 3, and whether it is one to be refused."""
    turn = draw.randrange(3)
    document = draw_document(draw) if turn == 0 or draw.random() < 0.3 else json.loads(draw.choice(examples))
    if turn == 0 and draw.random() < 0.06:
        document = draw_large(draw)
    if turn:
        change(draw, document, small=True)
    if turn == 2:
        add_parts(draw, document, [], {})
        document["claim"] = {"answer": draw.choice((*CLAIMS, "none")), "firm": "S", draw.choice(["on", "prices", "over", "gain"]): []}
        if draw.random() < 0.3:
            document["claim"] = plan_of(draw, document)
    return document, turn == 2


def plan_of(draw, document):
    """A claim by a plan in parts, of own trades of firms for the most part."""
    firms, trades = document.get("firms"), document.get("trades")
    ends = [(trade.get("name"), trade.get("seller"), trade.get("buyer")) for trade in trades if isinstance(trade, dict)] if isinstance(trades, list) else []
    names = [firm.get("name") for firm in firms if isinstance(firm, dict)] if isinstance(firms, list) else []
    plan, most = [], limits_of(document).claimed_over
    for _ in range(draw.randint(0, 4)):
        firm = draw.choice([*names, "nobody"])
        own = [name for name, *its in ends if firm in its or draw.random() < 0.05]
        plan.append([firm, draw.sample(own, draw.randint(0, len(own))), draw.choice([1, 2, 3, most, 0, most + 1, -1, 1.5, "1"])])
    return {"answer": "none", "over": draw.choice([1, 2, most, 0, None]), "plan": plan}
