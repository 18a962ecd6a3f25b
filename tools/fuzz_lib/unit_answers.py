"""What has to hold of answers to documents in which trades have units."""
import csv
import json

from fuzz_lib.documents import spoil
from fuzz_lib.limits import LIMITS, SETS, UNIT_LIMITS, UNIT_VERSION
from fuzz_lib.programs import ASKED, LAYOUTS, want
from fuzz_lib.unit_documents import at_unit_limit, change_units, draw_arrangement, draw_unit_edits
from fuzz_lib.unit_network import UnitNetwork, units_as_trades, usable_units
from fuzz_lib.unit_reader import COUNTING

MOST_COUNTS = 3000  # of networks of which all counts are tried
MOST_STATE_COUNTS = 200  # and of what is usable after an edit
MOST_OWN, MOST_TWINS = LIMITS[3].own, 200  # of unit networks that are asked as documents of version 3
FAR = 10 ** 15  # a price without a bound goes as far
ROWS = [words for words in LAYOUTS if words.split()[0] in COUNTING]


def hold_units(program, document, draw):
    """Asks all commands of a document that answer it, and one that doesn't, and holds it to its unit network."""
    tested, solved = program.ask("test", document), program.ask("solve", document)
    for words in draw.sample([words for words in (*ASKED, "replay") if words not in COUNTING], 1):
        want(program.ask(words, document)["answer"] == "fault", "another command answers", words)
    if solved["answer"] == "fault":
        want(tested == solved, "another fault of test", tested, solved)
        return
    want(tested == {"answer": "accepted"}, "a network that isn't accepted", tested)
    network = UnitNetwork(document)
    hold_solved(document, network, solved)
    if network.size() <= MOST_COUNTS:
        want(solved["surplus"] == network.greatest(), "another surplus of all counts", solved)
    ranged = program.ask("range", document)
    hold_ranged(document, network, ranged, solved)
    counts, prices = network.counts(solved["on"]), dict(solved["prices"])
    said = program.again("check", document, arrangement=arrangement_of(counts, prices))
    want(said == {"answer": "equilibrium", "surplus": solved["surplus"]}, "what is solved", said, solved)
    document = {**document, "arrangement": draw_arrangement(draw, document, counts, prices), "edits": draw_unit_edits(draw, document)}
    hold_states(document, network, program.ask("session", document))
    asked = {words: program.ask(words, document) for words in ("check", "firms", "support")}
    hold_judged(document, network, asked)
    hold_twins(program, document, asked, solved, ranged)
    if draw.random() < 0.2:
        for words in ROWS:
            hold_unit_rows(document, {**asked, "solve": solved, "range": ranged}[words.split()[0]], words, program.ask(words, document))


def arrangement_of(counts, prices):
    return {"on": [[name, count] for name, count in counts.items() if count], "prices": [*map(list, prices.items())]}


def hold_solved(document, network, solved):
    """The answer names trades in order, and its counts and prices are an equilibrium with its surplus."""
    counts, prices = network.counts(solved["on"]), dict(solved["prices"])
    want([name for name, _ in solved["prices"]] == [*counts], "the prices of all trades", solved)
    want(solved["on"] == listed(counts), "the trades with units", solved)
    said = network.verdict(counts, prices)
    want(said == {"answer": "equilibrium", "surplus": solved["surplus"]}, "no equilibrium", said, solved)


def hold_states(document, network, said):
    """After each edit the counts and prices are an equilibrium of the usable units, and trades with a usable unit alone have a price."""
    want(said["answer"] == "session" and len(said["edits"]) == len(document["edits"]), "the count of states", said)
    for k, state in enumerate(said["edits"]):
        then = network.with_units(usable_units(document, document["edits"][:k + 1]))
        counts, prices = then.counts(state["on"]), dict(state["prices"])
        want(state.keys() == {"on", "prices", "surplus"} and state["on"] == listed(counts), "the trades with units in a state", k, state)
        want([*prices] == [name for name, count in then.units.items() if count], "the prices of usable trades", k, state)
        want(all(0 <= count <= then.units[name] for name, count in counts.items()), "more units than are usable", k, state)
        said_of = then.verdict(counts, dict.fromkeys(then.units, 0) | prices)
        want(said_of == {"answer": "equilibrium", "surplus": state["surplus"]}, "a state that is no equilibrium", k, said_of, state)
        if then.size() <= MOST_STATE_COUNTS:
            want(state["surplus"] == then.greatest(), "another surplus of all usable counts", k, state)


def listed(counts):
    return [[name, count] for name, count in counts.items() if count]


def hold_judged(document, network, asked):
    """What is said of an arrangement is so."""
    counts, prices = network.counts(document["arrangement"]["on"]), dict(document["arrangement"]["prices"])
    if "check" in asked:
        hold_verdict(network, counts, prices, asked["check"])
    if "firms" in asked:
        hold_holdings(network, counts, prices, asked["firms"])
    if "support" in asked:
        hold_supported(network, counts, asked["support"])


def hold_answer(document, network, said):
    """What one answer says by itself of a document is so."""
    if said["answer"] == "solved":
        hold_solved(document, network, said)
    elif said["answer"] == "ranges":
        hold_ranged(document, network, said)
    elif said["answer"] == "session":
        hold_states(document, network, said)
    else:
        words = {"firms": "firms", "prices": "support", "cycle": "support"}.get(said["answer"], "check")
        hold_judged(document, network, {words: said})


def hold_verdict(network, counts, prices, said):
    """`check` names the first firm that would rather have other counts, with best ones and the gain."""
    verdict = network.verdict(counts, prices)
    want({**said, **verdict} == said and len(said) == len(verdict) + (said["answer"] == "better"), "the verdict of check", said, verdict)
    if said["answer"] == "better":
        firm = network.firm(said["firm"])
        hold_best(network, firm, prices, said["bundle"])


def hold_best(network, firm, prices, bundle):
    """A bundle is of own trades in order, with units that they have, and no counts have more utility."""
    counts = dict.fromkeys(firm.buys, 0) | dict(bundle)
    want(listed(counts) == bundle and [*counts] == [*firm.buys], "a bundle", firm.name, bundle)
    want(all(0 <= count <= network.units[name] for name, count in counts.items()), "units of a bundle", firm.name, bundle)
    want(firm.utility(counts, prices) == firm.best(network.units, prices), "a bundle that isn't best", firm.name, bundle)


def hold_holdings(network, counts, prices, said):
    """Each firm has its counts, their worth and utility, and best counts, which are its own where it is content."""
    want([held["firm"] for held in said["firms"]] == [firm.name for firm in network.firms], "the firms", said)
    for firm, held in zip(network.firms, said["firms"]):
        own = listed({name: counts[name] for name in firm.buys})
        utility, best = firm.utility(counts, prices), firm.best(network.units, prices)
        wanted = dict(has=own, worth=firm.worth(counts), utility=utility, best_utility=best, gain=None if utility is None else best - utility)
        want({**held, **wanted} == held and len(held) == 7, "what a firm has", held, wanted)
        hold_best(network, firm, prices, held["best"])
        want(held["gain"] != 0 or held["best"] == own, "a content firm", held)
    content = sum(held["gain"] == 0 for held in said["firms"])
    want(said["content"] == content and said["surplus"] == network.surplus(counts), "content firms and the surplus", said)


def hold_supported(network, counts, said):
    """Prices make the counts an equilibrium; the steps of a cycle lead to counts with so much more surplus; or a firm can't have them."""
    firm = next((firm.name for firm in network.firms if firm.worth(counts) is None), None)
    if firm or said["answer"] == "impossible":
        want(said == {"answer": "impossible", "firm": firm}, "the first firm whose counts are impossible", said, firm)
    elif said["answer"] == "prices":
        want([name for name, _ in said["prices"]] == [*counts], "the prices of all trades", said)
        want(network.verdict(counts, dict(said["prices"]))["answer"] == "equilibrium", "supporting prices", said)
    else:
        nodes, steps = said["nodes"], dict(filter(None, said["nodes"]))
        want(said["answer"] == "cycle" and said["cost"] < 0 and is_once(nodes), "a cycle", said)
        want(network.added(counts, nodes + nodes[:1]) == -said["cost"], "the cost of a cycle", said)
        moved = {name: count + steps.get(name, 0) for name, count in counts.items()}
        want(network.surplus(moved) == network.surplus(counts) - said["cost"], "counts with more surplus", said)


def is_once(nodes):
    """Whether nodes are null once at most and each trade once at most, by one unit."""
    names = [node and node[0] for node in nodes]
    return len(names) == len({*names}) and all(node is None or node[1] in (1, -1) for node in nodes)


def hold_ranged(document, network, said, solved=None):
    """All bounds of a side are an equilibrium, prices without one as far as one likes, where what is solved is known; and no price is
    beyond a bound: to give or take a unit of the trade would bring the firms on its path just that."""
    counts = network.counts(said["on"])
    names = [entry["trade"] for entry in said["ranges"]]
    want(names == [*counts] and said["on"] == listed(counts), "the trades of ranges", said)
    for side, beyond in (("high", FAR), ("low", -FAR)):
        bounds = {entry["trade"]: entry[side] for entry in said["ranges"] if entry[side] is not None}
        if solved or len(bounds) == len(counts):
            verdict = network.verdict(counts, {name: price + beyond for name, price in solved["prices"]} | bounds if solved else bounds)
            want(verdict["answer"] == "equilibrium", "the bounds of a side", side, verdict, said)
    for entry in said["ranges"]:
        want(entry.keys() == {"trade", "low", "high", "low_path", "high_path"}, "a range", entry)
        for side, sign in (("high", -1), ("low", 1)):
            hold_path(network, counts, entry, side, sign)


def hold_path(network, counts, entry, side, sign):
    """A path goes from null to its trade for the highest price, and back for the lowest; its firms lose or gain the bound by its steps."""
    bound, nodes = entry[side], entry[side + "_path"]
    want((nodes == []) == (bound is None), "a path without a bound", entry)
    if nodes:
        null, end = nodes[::-sign][0], nodes[::-sign][-1]
        want(null is None and end is not None and end[0] == entry["trade"] and is_once(nodes), "the ends of a path", entry)
        added = network.added(counts, nodes)
        want(added == sign * bound, "what a path adds", entry, added)


def hold_twins(program, document, asked, solved, ranged):
    """A document of version 3 with a trade for each unit has the same surplus, the same ranges, and the same is said of its arrangement."""
    if sum(trade.get("units", 1) for trade in document["trades"]) > MOST_TWINS:
        return
    twins = units_as_trades(document)
    if not is_room_for(twins):
        return
    trade_of = {trade["name"]: trade["name"].rsplit(".", 1)[0] for trade in twins["trades"]}
    alone = program.again("solve", twins)
    want(alone["answer"] == "solved" and alone["surplus"] == solved["surplus"], "another surplus of single units", alone, solved)
    bounds = {entry["trade"]: (entry["low"], entry["high"]) for entry in ranged["ranges"]}
    alone = program.again("range", twins)
    for entry in alone["ranges"]:
        want((entry["low"], entry["high"]) == bounds[trade_of[entry["trade"]]], "another range of a single unit", entry, ranged)
    at = arrangement_of_twins(document["arrangement"], trade_of)
    for words in ("check", "support"):
        said, alone = asked[words], program.again(words, twins, arrangement=at)
        same = [member for member in ("answer", "firm", "gain", "surplus") if member in said]
        want(alone.items() >= {member: said[member] for member in same}.items(), "another verdict on single units", words, alone, said)


def arrangement_of_twins(arrangement, trade_of):
    """The first twins of each trade are on, as many as its count; each has the trade's price."""
    counts, prices = dict(arrangement["on"]), dict(arrangement["prices"])
    on = [name for name, trade in trade_of.items() if int(name.rsplit(".", 1)[1]) < counts.get(trade, 0)]
    return {"on": on, "prices": [[name, prices[trade]] for name, trade in trade_of.items()]}


def is_room_for(document):
    """Whether a document of version 3 has room for own trades and values."""
    own = [end for trade in document["trades"] for end in (trade["seller"], trade["buyer"])]
    sets = [part for firm in document["firms"] for part in firm["sets"]]
    return all(own.count(firm["name"]) <= MOST_OWN and len(firm["sets"]) <= SETS for firm in document["firms"]) and all(
        abs(value) <= LIMITS[3].amount for part in sets for value in part["values"])


def hold_as_units(program, document, solved):
    """A document of versions 1 to 3 whose firms are all laminar has the same surplus and ranges in version 4, where a trade is one unit."""
    if not all(is_laminar(firm) for firm in document["firms"]):
        return
    counted, network = {**document, "version": UNIT_VERSION}, UnitNetwork(document)
    said = program.ask("solve", counted)
    want(said["answer"] == "solved" and said["surplus"] == solved["surplus"], "another surplus in version 4", said, solved)
    hold_solved(document, network, said)
    alone, ranged = program.again("range", document), program.ask("range", counted)
    hold_ranged(document, network, ranged, said)
    for one, other in zip(alone["ranges"], ranged["ranges"]):
        want((one["low"], one["high"]) == (other["low"], other["high"]), "another range in version 4", one, other)


def is_laminar(firm):
    """Whether a firm is laminar, and within what version 4 has room for."""
    if firm["kind"] != "laminar":
        return False
    sets, amounts = firm.get("sets", []), [number for _, number in firm.get("amounts", [])]
    held = [name for part in sets for name in part["trades"]]
    return all(abs(number) <= UNIT_LIMITS.amount for number in sum((part["values"] for part in sets), amounts)) and all(
        held.count(name) <= UNIT_LIMITS.holding for name in held)


def hold_unit_rows(document, answer, words, said):
    """Rows tell units, and the rest as the object does."""
    columns = LAYOUTS[words].split(",")
    if answer["answer"] not in ("solved", "prices", "ranges", "firms"):
        want(said == answer, "no rows", words, said, answer)
        return
    rows = [[field_of(entry[column]) for column in columns] for entry in entries_of(document, answer)]
    want(isinstance(said, str) and list(csv.reader(said.splitlines()))[1:] == rows, "rows", words, said, answer)


def entries_of(document, answer):
    """What rows say of an answer, entry by entry."""
    if answer["answer"] == "firms":
        return [{**firm, "content": int(firm["gain"] == 0)} for firm in answer["firms"]]
    ends = {trade["name"]: trade for trade in document["trades"]}
    counts = dict(answer.get("on", document.get("arrangement", {}).get("on", [])))
    entries = answer["ranges"] if "ranges" in answer else [dict(trade=name, price=price) for name, price in answer["prices"]]
    return [{**ends[entry["trade"]], **entry, "on": counts.get(entry["trade"], 0)} for entry in entries]


def field_of(value):
    """A field: nothing, a bundle with how many units of each trade, or a name or number as it is."""
    if isinstance(value, list):
        return " ".join(f"{name}:{count}" for name, count in value)
    return "" if value is None else str(value)


def hold_units_quickly(program, document, draw):
    """Asks one command of a document, and holds what it says to the firms' best counts."""
    document = {**document, "arrangement": draw_arrangement(draw, document, {}, {}), "edits": draw_unit_edits(draw, document)}
    words = draw.choice([*COUNTING * 3, *ROWS, *(ASKED if draw.random() < 0.1 else [])])
    said = program.ask(words, document)
    if words in ROWS:
        hold_unit_rows(document, program.again(words.split()[0], document), words, said)
    elif said["answer"] == "fault":
        return
    elif words == "range":
        hold_ranged(document, UnitNetwork(document), said, program.again("solve", document))
    elif words == "solve":
        hold_solved(document, UnitNetwork(document), said)
    elif words == "session":
        hold_states(document, UnitNetwork(document), said)
    else:
        hold_judged(document, UnitNetwork(document), {words: said})


def hold_unit_refusals(program, document, draw, commands=4):
    """Asks some commands of a text that may be anything: each answer has its status and is one line, and a fault is the first."""
    if draw.random() < 0.4:
        at_unit_limit(draw, document)
    else:
        change_units(draw, document)
    text = json.dumps(document, ensure_ascii=draw.random() < 0.5).encode()
    if draw.random() < 0.2:
        text = spoil(draw, text)
    for words in draw.sample([*COUNTING] * 20 + [*ASKED, "replay", *LAYOUTS], commands):
        program.run(words, text)
