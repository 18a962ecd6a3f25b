"""What has to hold of answers."""
import csv
import json
import sys

from fuzz_lib.documents import CLAIMS, add_parts, at_limit, change, spoil, usable_after
from fuzz_lib.network import Network, first_triple, payments, takes_all
from fuzz_lib.programs import ASKED, LAYOUTS, MORE_ASKED, MOST_BUNDLES, want
from fuzz_lib.unit_answers import hold_as_units

NUMBERS = dict(equilibrium="surplus", better="gain", cycle="cost", solved="surplus", drops="gain")
MOST_TRADES = 9  # of networks of which all sets are tried


def hold_triple(document, fault, tested):
    """`test` asks for no exchange property before it answers: it says the same triple as the fault, or a later fault."""
    if fault["fault"] == 16 and tested["answer"] == "exchange_fails":
        want(all(fault[member] == tested[member] for member in ("at", "x", "y")), "another triple of test", fault, tested)
        want(document["firms"][fault["place"][1]]["name"] == tested["firm"], "another firm of test", fault, tested)
    else:
        want(tested["answer"] == "fault", "a network that is accepted", fault, tested)


def hold_claim(ask, document, answer):
    """An answer that can be a claim is valid, and isn't with another number."""
    if answer["answer"] not in CLAIMS:
        return
    said = ask("replay", document, claim=answer)
    want(said == {"answer": "valid"}, "no valid claim", answer, said)
    member = NUMBERS.get(answer["answer"])
    if member and answer[member] is not None:
        said = ask("replay", document, claim={**answer, member: answer[member] - 1})
        wanted = {"answer": "invalid", "reason": member, member: answer[member]}
        want({**said, **wanted} == said, "a wrong claim", answer, said)


def hold_check(program, document, network, on, prices, **wanted):
    """`check` says of these trades and prices what all bundles say, and what is wanted; gives the answer."""
    at = {"on": network.listed(on), "prices": [[name, prices[name]] for name in network.names]}
    said = program.ask("check", document, arrangement=at)
    verdict = network.verdict(on, prices)
    want({**said, **verdict} == said and verdict.items() >= wanted.items(), "the verdict of check", at, said, verdict)
    if said["answer"] == "better":
        k = [firm["name"] for firm in network.firms].index(said["firm"])
        paid = payments(network.own[k], network.bought[k], [prices[name] for name in network.names])
        utility = {x: worth + paid[x] for x, worth in network.worths[k].items()}
        want(utility[network.set_of(said["bundle"])] - utility[on & network.own[k]] == said["gain"], "a better bundle", said)
    return said


def hold_test(program, document):
    said = program.ask("test", document)
    if said["answer"] == "fault":
        return said
    hold_claim(program.ask, document, said)
    if len(document["trades"]) > MOST_TRADES:
        return said
    network, failed = Network(document), None
    for k, firm in enumerate(network.firms):
        if firm["kind"] == "table" and len(network.worths[k]) > MOST_BUNDLES:
            failed = said  # (too many triples to try them all)
            break
        triple = first_triple(network.worths[k], network.bought[k], network.own[k])
        if triple:
            x, y, at = triple
            failed = dict(answer="exchange_fails", firm=firm["name"], x=network.listed(x), y=network.listed(y))
            failed["at"] = network.listed(at)[0] if at else None
            break
    want(said == (failed or {"answer": "accepted"}), "the verdict of test", said, failed)
    return said


def hold_support(program, document, network, on):
    said = program.ask("support", document, arrangement={"on": network.listed(on)})
    surplus = network.surplus(on)
    kind = "impossible" if surplus is None else "prices" if surplus == network.greatest(network.all) else "cycle"
    want(said["answer"] == kind, "the verdict of support", said, kind)
    if kind == "prices":
        want(network.verdict(on, dict(said["prices"]))["answer"] == "equilibrium", "supporting prices", said)
    hold_claim(program.ask, {**document, "arrangement": {"on": network.listed(on)}}, said)


def hold_range(program, document, network, draw):
    """Bounds are the least costs of walks; all highest prices and all lowest are equilibria, and one beyond them is none."""
    said = program.ask("range", document)
    on, null = network.set_of(said["on"]), len(network.names)
    least = network.distances(on)
    for k, entry in enumerate(said["ranges"]):
        wanted = {"trade": network.names[k], "low": None if least[k][null] is None else -least[k][null], "high": least[null][k]}
        want({**entry, **wanted} == entry, "a range", entry, wanted)
    wanted = {"answer": "equilibrium", "surplus": network.greatest(network.all)}
    hold_ends(said["ranges"], wanted, draw, lambda prices: hold_check(program, document, network, on, prices))


def hold_ends(ranges, wanted, draw, check):
    for side, beyond in (("low", -1), ("high", 1)):
        prices = {entry["trade"]: entry[side] for entry in ranges}
        if prices and None not in prices.values():
            at = check(prices)
            want({**at, **wanted} == at, "the ends of ranges", prices, at)
            prices[draw.choice([*prices])] += beyond
            want(check(prices)["answer"] == "better", "a price beyond its range", prices)


def hold_session(program, document, network):
    said = program.ask("session", document)
    want(len(said["edits"]) == len(document["edits"]), "the count of states", said)
    for k, state in enumerate(said["edits"]):
        allowed = usable_after(document, document["edits"][:k + 1])
        names = [n for n in network.names if n in allowed]
        on, within = network.set_of(state["on"]), network.set_of(names)
        want([n for n, _ in state["prices"]] == names and not on & ~within, "the trades of a state", state)
        verdict = network.verdict(on, dict(state["prices"]), 1, within)
        want(verdict == {"answer": "equilibrium", "surplus": state["surplus"]}, "a state", state, verdict)
        want(state["surplus"] == network.greatest(within), "the surplus of a state", state)


def hold_judge(program, document, network):
    said = program.ask("judge", document)
    over, signed = document["outcome"]["over"], dict(document["outcome"]["contracts"])
    on = network.set_of(signed)
    kept = network.verdict(on, signed, over, on)
    if kept["answer"] != "equilibrium":
        wanted = {"answer": "drops", "firm": kept["firm"], "gain": kept.get("gain"), "over": over}
        want({**said, **wanted} == said, "a drop", said, kept)
    elif said["answer"] == "completes":
        prices = dict(said["prices"])
        want({**prices, **signed} == prices and said["over"] == over, "the prices of contracts", said)
        want(network.verdict(on, prices, over)["answer"] == "equilibrium", "completing prices", said)
    else:
        want(said["answer"] == "blocks", "the verdict of judge", said)
        hold_blocks(network, over, signed, said)
    hold_claim(program.ask, document, said)


def hold_blocks(network, over, signed, said):
    offers, ends = said["contracts"], network.ends
    want(said["over"] == over * (2 * (len(network.names) - len(signed)) + 1), "the denominator of a chain", said)
    want(offers and not {name for name, _ in offers} & set(signed), "signed contracts block", said)
    want(all(ends[a]["buyer"] == ends[b]["seller"] for (a, _), (b, _) in zip(offers, offers[1:])), "no chain", said)
    at = network.names.index
    together = [(at(name), price * over, True) for name, price in offers]
    together += [(at(name), price * said["over"], False) for name, price in signed.items()]
    for k, firm in enumerate(network.firms):
        takes = takes_all(network, k, together, over * said["over"])
        want(takes is not False, "a firm leaves a contract that blocks", firm["name"], said)


def entries_of(document, answer):
    """What rows may say of an answer, entry by entry; none of an answer that has no rows."""
    if answer["answer"] == "firms":
        return [{**firm, "content": firm["gain"] == 0} for firm in answer["firms"]]
    prices = [dict(trade=name, price=price) for name, price in answer.get("prices", [])]
    ends = {trade["name"]: trade for trade in document["trades"]}
    on = answer.get("on", document["arrangement"]["on"])
    return [{**ends[entry["trade"]], **entry, "on": entry["trade"] in on} for entry in answer.get("ranges", prices)]


def field_of(value):
    """A field: nothing, 1 or 0, names with a blank between two, or a name or number as it is."""
    if isinstance(value, list):
        return " ".join(value)
    return "" if value is None else str(int(value)) if isinstance(value, bool) else str(value)


def hold_rows(ask, document, words, said):
    """In a layout the same is said as in the object."""
    answer = ask(words.split()[0], document)
    if answer["answer"] in ("solved", "prices", "ranges", "firms"):
        columns = LAYOUTS[words].split(",")
        rows = [[field_of(entry[column]) for column in columns] for entry in entries_of(document, answer)]
        want(isinstance(said, str) and list(csv.reader(said.splitlines()))[1:] == rows, "rows", words, said, answer)
    else:
        want(said == answer, "no rows", words, said, answer)


def hold_firms(ask, document, said):
    """`check` names the first firm that isn't content, and says what it would gain, or that there is none; or a table fails."""
    first = next((firm for firm in said["firms"] if firm["gain"] != 0), None)
    if first is None:
        wanted = {"answer": "equilibrium", "surplus": said["surplus"]}
    else:
        wanted = {"answer": "impossible"} if first["gain"] is None else {"answer": "better", "gain": first["gain"]}
        wanted["firm"] = first["firm"]
    checked = ask("check", document)
    want({**checked, **wanted} == checked or checked.get("name") == "ExchangeFails", "the first that isn't content", said, checked)
    want(said["content"] == sum(firm["gain"] == 0 for firm in said["firms"]), "how many are content", said)


def hold_utilities(network, on, prices, said):
    """Each firm has the utility of its bundle, and the best one is that of the best of all its bundles."""
    for own, bought, worths, firm in zip(network.own, network.bought, network.worths, said["firms"]):
        paid = payments(own, bought, [prices[name] for name in network.names])
        utility = {x: worth + paid[x] for x, worth in worths.items()}
        best = utility[network.set_of(firm["best"])]
        want(firm["utility"] == utility.get(on & own) and max(utility.values()) == firm["best_utility"] == best, "utilities", firm)


def hold_all(program, document, draw):
    """Asks every command of a document."""
    tested = hold_test(program, document)
    solved = program.ask("solve", document)
    if solved["answer"] == "fault":
        hold_triple(document, solved, tested)
        return
    want(tested["answer"] == "accepted", "a network that isn't accepted", tested)
    hold_claim(program.ask, document, solved)
    hold_as_units(program, document, solved)
    add_parts(draw, document, solved["on"], dict(solved["prices"]))
    if draw.random() < 0.1:
        for words in LAYOUTS:
            hold_rows(program.ask, document, words, program.ask(words, document))
    has = program.ask("firms", document)
    hold_firms(program.ask, document, has)
    if len(document["trades"]) > MOST_TRADES:
        for words in ("check", "support", "judge", "session", "range"):
            hold_claim(program.ask, document, program.ask(words, document))  # (too many sets to try them all)
        return
    network = Network(document)
    wanted = {"answer": "equilibrium", "surplus": network.greatest(network.all)}
    hold_check(program, document, network, network.set_of(solved["on"]), dict(solved["prices"]), **wanted)
    on, prices = network.set_of(document["arrangement"]["on"]), dict(document["arrangement"]["prices"])
    hold_claim(program.ask, document, hold_check(program, document, network, on, prices))
    hold_utilities(network, on, prices, has)
    hold_support(program, document, network, on)
    hold_judge(program, document, network)
    hold_session(program, document, network)
    hold_range(program, document, network, draw)


def quick_check(program, document, on, prices):
    return program.again("check", document, arrangement={"on": on, "prices": [*map(list, prices.items())]})


def hold_state(program, document, states, draw):
    """One of the states is an equilibrium of the network with the trades alone that can be used then."""
    want(len(states) == len(document["edits"]), "the count of states", states)
    if states:
        last = draw.randrange(len(states))
        usable = usable_after(document, document["edits"][:last + 1])
        state, prices = states[last], dict(states[last]["prices"])
        said = quick_check(program, restricted(document, usable), state["on"], prices)
        want(said == {"answer": "equilibrium", "surplus": state["surplus"]}, "a state", state, said)


def restricted(document, admitted):
    """The document's network with these trades alone."""
    def some(entries, count=1):
        return [entry for entry in entries if admitted.issuperset(entry[:count])]

    firms = []
    for firm in document["firms"]:
        firm = {member: some(value) if member in ("amounts", "costs", "gains") else value for member, value in firm.items()}
        if "rows" in firm:
            firm["rows"] = [row for row in firm["rows"] if admitted.issuperset(row[0])]
        if "pairs" in firm:
            firm["pairs"] = some(firm["pairs"], 2)
        if "sets" in firm:
            firm["sets"] = [{**part, "trades": [t for t in part["trades"] if t in admitted]} for part in firm["sets"]]
        firms.append(firm)
    return {**document, "firms": firms, "trades": [trade for trade in document["trades"] if trade["name"] in admitted]}


def hold_quickly(program, document, draw):
    """Asks one command of a document."""
    add_parts(draw, document, [], {})
    words = draw.choice(ASKED * MORE_ASKED + (*LAYOUTS,))
    said = program.ask(words, document)
    if words in LAYOUTS:
        hold_rows(program.again, document, words, said)
    elif said["answer"] == "fault":
        return
    elif words == "firms":
        hold_firms(program.again, document, said)
    elif words == "session":
        hold_state(program, document, said["edits"], draw)
    elif words == "range":
        hold_ends(said["ranges"], {"answer": "equilibrium"}, draw, lambda prices: quick_check(program, document, said["on"], prices))
    else:
        hold_claim(program.again, document, said)
        if words == "solve":
            found = quick_check(program, document, said["on"], dict(said["prices"]))
            want(found == {"answer": "equilibrium", "surplus": said["surplus"]}, "what is solved", said, found)


def is_drawn(document):
    """Whether firms and trades are lists of what has a name."""
    return all(isinstance(each, dict) and "name" in each for part in ("firms", "trades") for each in document[part]) and document["firms"]


def hold_refusals(program, document, draw, commands=4):
    """Asks some commands of a text that may be anything: each answer has its status and is one line, and a fault is the first."""
    if draw.random() < 0.25 and is_drawn(document):
        at_limit(draw, document)
    else:
        change(draw, document, small=False)
    text = json.dumps(document, ensure_ascii=draw.random() < 0.5).encode()
    if draw.random() < 0.3:
        text = spoil(draw, text)
    for words in draw.sample((*ASKED, "replay") * MORE_ASKED + (*LAYOUTS,), commands):
        program.run(words, text)


def keep(folder, seed, k, document, error):
    folder.mkdir(parents=True, exist_ok=True)
    path = folder / f"{seed}-{k}.json"
    path.write_text(json.dumps(document) + "\n")
    print(f"{path}: {error!r}", file=sys.stderr, flush=True)
