"""What is said of the faults of documents: what stands at the place of a fault, and what is wanted there.

`str(fault)` says it. The number, the name and the place of a fault are the program's; the tables of fault_tables.py are
those of page/read/shapes.js and limits.js, and the sentences are those of tools/explain in English, which
tools/words_test holds to each other.
"""
from __future__ import annotations

import json
import re
from typing import Any, Callable, Optional

from .fault_tables import (CLAIMED, LIMITS, OF_KINDS, OF_MEMBERS, OF_UNITS, SHAPES, TEXTS, UNIT_LIMITS, UNIT_SHAPES,
                           UNIT_VERSION, WORDS, Bound)

MOST_BYTES, DEEPEST, LARGEST = 4_194_304, 127, 2 ** 63
MOST_SIGNS, MOST_NAMES = 40, 8


# Words

def _say(key: str, **values: Any) -> str:
    text = TEXTS[key]
    plain: str = text if isinstance(text, str) else text["one" if values["count"] == 1 else "other"]
    return re.sub(r"\{(\w+)\}", lambda found: str(values[found[1]]), plain)


def _listed(words: list[str]) -> str:
    return words[0] if len(words) == 1 else _say("list.some", most=", ".join(words[:-1]), last=words[-1])


def _some(names: list[str]) -> str:
    few, rest = [_quoted(name) for name in names[:MOST_NAMES]], len(names) - MOST_NAMES
    return _listed(few) if rest <= 0 else _say("list.more", names=", ".join(few), rest=rest)


def _quoted(value: Any) -> str:
    signs = json.dumps(str(value), ensure_ascii=False)[1:-1]
    return f"`{signs[:MOST_SIGNS]}..`" if len(signs) > MOST_SIGNS else f"`{signs}`"


def _numeral(value: Any) -> str:
    return _quoted(value)[1:-1]


def _large(number: int) -> str:
    return f"{number:,}"


def _set(names: list[str]) -> str:
    return _quoted("{" + ", ".join(names) + "}")


def _nearest(word: str, known: list[str]) -> Optional[str]:
    """The word that is nearest to one, and the first of several, or None."""
    distances = [_apart(word.encode(), each.encode()) for each in known]
    least = min((distance for distance in distances if distance is not None), default=None)
    return None if least is None else known[distances.index(least)]


def _apart(one: bytes, other: bytes) -> Optional[int]:
    """How many bytes are between what two words begin and end with alike; None where these aren't more."""
    alike = _same_at_head(one, other) + _same_at_head(one[::-1], other[::-1])
    between = max(0, max(len(one), len(other)) - alike)
    return between if between <= 2 and between < alike else None


def _same_at_head(one: bytes, other: bytes) -> int:
    return next((k for k, pair in enumerate(zip(one, other)) if pair[0] != pair[1]), min(len(one), len(other)))


# What is no JSON

class _NotJson(Exception):
    """Where a text ends being JSON, and why; `is_whole` where that is all that is said."""

    def __init__(self, offset: int, key: str, is_whole: bool = False, **values: Any):
        super().__init__(key)
        self.offset, self.is_whole, self.why = offset, is_whole, _say(f"json.{key}", **values)


_BLANKS = re.compile(r"[ \t\n\r]*")
_NUMERAL = re.compile(r"-?(?:0|[1-9][0-9]*)(?:\.[0-9]+)?(?:[eE][+-]?[0-9]+)?")
_PLAIN = re.compile(r'[^"\\\x00-\x1f]*')
_UNIT = re.compile(r"[0-9a-fA-F]{4}")
_STANDING = re.compile(r"[A-Za-z0-9_.+-]{1,20}|.", re.S)


class _Reader:
    """Goes through a text as page/read/json.js does, and keeps nothing of it."""

    def __init__(self, text: str):
        self.text, self.at = text, 0

    def next(self) -> str:
        return self.text[self.at:self.at + 1]

    def skip(self) -> None:
        self.pass_over(_BLANKS)

    def pass_over(self, signs: re.Pattern[str]) -> None:
        found = signs.match(self.text, self.at)
        self.at = found.end() if found else self.at

    def takes(self, sign: str) -> bool:
        self.skip()
        found = self.next() == sign
        self.at += found
        return found

    def wants(self, sign: str, key: str) -> None:
        if not self.takes(sign):
            raise _NotJson(self.at, key)

    def value(self, depth: int) -> None:
        self.skip()
        first = self.next()
        if first == "":
            raise _NotJson(self.at, "ends")
        if first in "{[" and depth == DEEPEST:
            raise _NotJson(self.at, "deep", most=DEEPEST)
        if first in "{[":
            self.items(depth + 1, first)
        elif first == '"':
            self.string()
        elif first in "-0123456789":
            self.number()
        else:
            self.word()

    def word(self) -> None:
        found = next((word for word in ("true", "false", "null") if self.text.startswith(word, self.at)), None)
        if found is None:
            raise _NotJson(self.at, "no_value")
        self.at += len(found)

    def items(self, depth: int, opening: str) -> None:
        """The items of a list, or the members of an object."""
        is_list, is_going_on = opening == "[", True
        closing, key = ("]", "list") if is_list else ("}", "object")
        self.at += 1
        if self.takes(closing):
            return
        while is_going_on:
            if not is_list:
                self.member()
            self.value(depth)
            is_going_on = self.takes(",")
        self.wants(closing, key)

    def member(self) -> None:
        self.skip()
        if self.next() != '"':
            raise _NotJson(self.at, "member")
        self.string()
        self.wants(":", "colon")

    def number(self) -> None:
        start, found = self.at, _NUMERAL.match(self.text, self.at)
        if found is None:
            raise _NotJson(start, "digits")
        self.at = found.end()
        if self.next() != "" and self.next() in "0123456789.eE":
            raise _NotJson(self.at, "number")
        if float(found[0]) in (float("inf"), float("-inf")):
            raise _NotJson(start, "too_large")

    def string(self) -> None:
        opened = self.at
        self.at += 1
        self.pass_over(_PLAIN)
        while self.next() == "\\":
            self.at += 1
            self.escape()
            self.pass_over(_PLAIN)
        if self.next() == "":
            raise _NotJson(opened, "open")
        if self.next() != '"':
            raise _NotJson(self.at, "control")
        self.at += 1

    def escape(self) -> None:
        if self.next() == "u":
            return self.character()
        if self.next() == "" or self.next() not in '"\\/bfnrt':
            raise _NotJson(self.at, "escape")
        self.at += 1

    def character(self) -> None:
        """A character by its number; beyond 16 bits it takes two of them."""
        start, first = self.at - 1, self.unit()
        if not 0xD800 <= first <= 0xDFFF:
            return
        if first > 0xDBFF or not self.text.startswith("\\u", self.at):
            raise _NotJson(start, "half")
        self.at += 1
        if not 0xDC00 <= self.unit() <= 0xDFFF:
            raise _NotJson(start, "half")

    def unit(self) -> int:
        found = _UNIT.match(self.text, self.at + 1)
        if found is None:
            raise _NotJson(self.at, "four_digits")
        self.at += 5
        return int(found[0], 16)


def _problem_line(asked: bytes) -> Optional[str]:
    """Where bytes end being JSON, and what stands there."""
    try:
        _read_all(_text(asked))
    except _NotJson as problem:
        text = asked.decode(errors="ignore")
        before, found = text[:problem.offset].split("\n"), _STANDING.match(text, problem.offset)
        values = {"line": len(before), "column": len(before[-1]) + 1, "problem": problem.why}
        if problem.is_whole:
            return _say("fault.problem", **values)
        if found is None:
            return _say("fault.problem_end", **values)
        return _say("fault.problem_at", **values, found=_quoted(found[0]) if found[0] < " " else f"`{found[0]}`")
    return None


def _read_all(text: str) -> None:
    """Raises _NotJson where a text isn't JSON."""
    reader = _Reader(text)
    reader.value(0)
    reader.skip()
    if reader.at < len(text):
        raise _NotJson(reader.at, "more")


def _text(asked: bytes) -> str:
    """The text of bytes that is read as JSON."""
    try:
        text = asked.decode()
    except UnicodeDecodeError as error:
        if error.start == 0 and asked[0] in (0xFF, 0xFE):
            raise _NotJson(0, "utf16", True) from None
        raise _NotJson(len(asked[:error.start].decode()), "no_utf8", True, byte=f"{asked[error.start]:02X}") from None
    if text.startswith("\ufeff"):
        raise _NotJson(0, "mark", True)
    return text


# Documents, whose numbers stay as they are written

class _Numeral(str):
    """A number as it is written."""


def _read(asked: bytes) -> Any:
    return json.loads(asked, parse_int=_Numeral, parse_float=_Numeral)


def _is_text(value: Any) -> bool:
    return isinstance(value, str) and not isinstance(value, _Numeral)


def _part(value: Any, place: list[Any]) -> Any:
    """What a place leads to; raises LookupError or TypeError where nothing is there."""
    for step in place:
        value = value[step]
    return value


class _Absent:
    pass


def _found(data: Any, place: list[Any]) -> Any:
    try:
        return _part(data, place)
    except (LookupError, TypeError):
        return _Absent


def _objects(value: Any) -> list[dict[str, Any]]:
    return [each for each in value if isinstance(each, dict)] if isinstance(value, list) else []


def _has_units(data: Any) -> bool:
    """Whether a document is one in which trades have units."""
    version = data.get("version") if isinstance(data, dict) else None
    return isinstance(version, _Numeral) and version == UNIT_VERSION


class _Network:
    """A document's firms and trades, as far as it is read."""

    def __init__(self, data: Any):
        top = data if isinstance(data, dict) else {}
        self.data, self.version = data, top.get("version")
        self.firms, self.trades = _objects(top.get("firms")), _objects(top.get("trades"))
        self.has_units = _has_units(data)
        self.limits = UNIT_LIMITS if self.has_units else LIMITS.get(str(self.version), LIMITS["1"])

    def names(self, part: list[dict[str, Any]]) -> list[str]:
        return [each["name"] for each in part]

    def own(self, firm: str) -> list[str]:
        return [trade["name"] for trade in self.trades if firm in (trade.get("seller"), trade.get("buyer"))]


# Shapes

def _shape_at(data: Any, place: list[Any]) -> Optional[dict[str, Any]]:
    """The shape that is wanted at a place, with its name; None where no value is wanted."""
    shapes = {**SHAPES, **UNIT_SHAPES} if _has_units(data) else SHAPES
    shape, value = _shape(shapes, "document", data), data
    for step in place:
        items, members = shape.get("items", []), {**shape.get("needs", {}), **shape.get("may", {})}
        by_index = dict(enumerate(items)).get(step, shape.get("each"))
        name = members.get(step) if isinstance(step, str) else by_index
        if name is None:
            return None
        value = _found(value, [step])
        shape = _shape(shapes, name, value)
    return shape


def _shape(shapes: dict[str, dict[str, Any]], name: str, value: Any) -> dict[str, Any]:
    """A shape by its name; of firms and claims it is that of their kind, where they have one."""
    own = value.get({"firm": "kind", "claim": "answer"}.get(name, "")) if isinstance(value, dict) else None
    if name == "firm" and _is_text(own) and own in WORDS[shapes["firm"]["needs"]["kind"]]:
        return {"name": own, **shapes[own]}
    if name == "claim" and _is_text(own) and own in CLAIMED:
        return {"name": name, "claimed": own, "needs": {**SHAPES["claim"]["needs"], **CLAIMED[own]}}
    return {"name": name, **shapes.get(name, {})}


def _shape_line(network: _Network, place: list[Any], value: Any) -> Optional[str]:
    shape = _shape_at(network.data, place)
    if value is _Absent:
        return _missing_line(network.data, place)
    if shape is None:
        return None
    if shape["name"] == "version" and network.has_units:
        return _say("shape.no_units")
    if isinstance(value, dict) and "needs" in shape:
        return _member_line(shape, list(value)) or _form_line(shape, list(value))
    words = WORDS.get(shape["name"], [])
    wanted = _say("wanted.object") if "needs" in shape else _wanted(shape["name"])
    if isinstance(value, _Numeral) and re.fullmatch(r"-?[0-9]+", value):
        return _whole_line(shape["name"], value, wanted)
    near = _nearest(value, words) if _is_text(value) and shape["name"] != "version" else None
    if near is None:
        return _say("shape.wrong", wanted=wanted, found=_shown(value))
    return _say("shape.wrong_near", wanted=wanted, found=_shown(value), near=_quoted(near))


def _member_line(shape: dict[str, Any], names: list[str]) -> Optional[str]:
    """The first member of an object that isn't allowed."""
    needs, may = list(shape["needs"]), list(shape.get("may", {}))
    member = next((name for name in names if name not in needs + may), None)
    if member is None:
        return None
    near = _nearest(member, [name for name in needs + may if name not in names])
    values = {"member": _quoted(member), "thing": _thing(shape)}
    if near is not None:
        return _say("shape.member_near", **values, near=_quoted(near))
    values.update(needs=_members(needs), may=_members(may) if may else "")
    return _say("shape.member_may" if may else "shape.member", **values)


def _form_line(shape: dict[str, Any], names: list[str]) -> Optional[str]:
    """The members of a set that is written in two forms, or in half of one."""
    form = [name for name in names if name in ("bought", "sold", "from", "values")]
    return _say("shape.form", members=_members(form)) if shape["name"] == "set" else None


def _missing_line(data: Any, place: list[Any]) -> str:
    """A member that is missing, perhaps since its name is written otherwise."""
    *around, member = place
    shape = _shape_at(data, around) or {}
    if not around and member in shape["may"]:
        return _say("shape.part", member=_quoted(member))
    allowed = {**shape["needs"], **shape.get("may", {})}
    near = _nearest(member, [name for name in _part(data, around) if name not in allowed])
    values = {"member": _quoted(member), "thing": _thing(shape)}
    return _say("shape.missing", **values) if near is None else _say("shape.missing_near", **values, near=_quoted(near))


def _whole_line(name: str, text: str, wanted: str) -> str:
    """A whole number where none is wanted, or one that isn't written as it has to be."""
    is_wanted = name in ("number", "number_or_null")
    if is_wanted and text == "-0":
        return _say("shape.minus_zero")
    is_long = len(text) > 20 or not -LARGEST <= int(text) < LARGEST
    return _say("shape.too_large", number=_numeral(text)) if is_wanted and is_long \
        else _say("shape.wrong", wanted=wanted, found=_numeral(text))


def _members(names: list[str]) -> str:
    return _listed([_quoted(name) for name in names])


def _wanted(name: str) -> str:
    return _say(f"wanted.{name}", words=_members(WORDS[name]) if name in WORDS else "")


def _thing(shape: dict[str, Any]) -> str:
    claimed = shape.get("claimed")
    return _say(f"thing.{shape['name']}") if claimed is None else _say("thing.claimed", answer=_quoted(claimed))


def _shown(value: Any) -> str:
    if isinstance(value, dict):
        return _say("shown.object")
    if isinstance(value, list):
        return _say("shown.list", length=len(value))
    if _is_text(value):
        return _say("shown.text", text=_quoted(value))
    return _numeral(value if isinstance(value, _Numeral) else json.dumps(value))


# Limits and ranges

def _limit_line(network: _Network, place: list[Any], value: Any) -> Optional[str]:
    last, firm = place[-1], network.firms[place[1]] if place[0] == "firms" and len(place) > 1 else None
    own = len(network.own(firm["name"])) if firm else 0
    if last == "rows":
        return _say("limit.rows", count=len(value), own=own, bundles=_large(2 ** own - 1))
    if place == ["claim"]:
        return _say("limit.plan_trades", count=len(network.trades))
    if network.has_units:
        return _unit_limit_line(network, place, value)
    if firm is None or last in OF_MEMBERS:
        return _bound_line(network, last, OF_MEMBERS[last], int(value) if last == "from" else len(value))
    return _bound_line(network, firm["kind"], OF_KINDS[firm["kind"]], own)


def _unit_limit_line(network: _Network, place: list[Any], value: Any) -> str:
    """The same where trades have units."""
    last, version = place[-1], network.version
    if isinstance(last, int):
        earlier = network.firms[place[1]]["sets"][:place[3]]
        held = next(name for name in value["trades"]
                    if sum(name in each["trades"] for each in earlier) >= UNIT_LIMITS["holding"])
        return _say("limit.holding", trade=_quoted(held), version=version, most=UNIT_LIMITS["holding"])
    if last == "edits" and len(value) <= UNIT_LIMITS["edits"]:
        return _say("limit.edited", count=len(value), trades=len(network.trades), version=version,
                    most=_large(UNIT_LIMITS["edited"]))
    if last == "sets":
        count = sum(len(firm.get("sets", [])) for firm in network.firms[:place[1] + 1])
        return _say("limit.all_sets", count=count, version=version, most=_large(UNIT_LIMITS["sets"]))
    if last != "trades" or len(value) > UNIT_LIMITS["trades"]:
        return _bound_line(network, "steps" if last in ("bought", "sold") else last, OF_UNITS[last],
                           int(value) if last == "from" else len(value))
    count = sum(int(trade.get("units", 1)) for trade in network.trades)
    return _say("limit.all_units", count=_large(count), version=version, most=_large(UNIT_LIMITS["units"]))


def _bound_line(network: _Network, name: str, bound: Bound, count: int) -> str:
    """A limit with what was found, and the first version that has room for it, where one has."""
    def most(limits: dict[str, int]) -> int:
        return bound if isinstance(bound, int) else limits[bound[0]] + bound[1]

    said = _say(f"limit.{name}", count=count, version=network.version, most=_large(most(network.limits)))
    wider = next((each for each in LIMITS if each > str(network.version) and abs(count) <= most(LIMITS[each])), None)
    if wider is None or name == "nodes":
        return said
    return _say("limit.wider", told=said, version=wider, most=_large(most(LIMITS[wider])))


def _range_line(network: _Network, place: list[Any], number: str) -> str:
    value, part = _numeral(number), place[0]
    if place[-1] == "units":
        return _say("beyond.units", value=value, most=_large(UNIT_LIMITS["units"]))
    if _is_of_step(place) and place[-1] == 0:
        return _say("beyond.step_units", value=value, most=_large(UNIT_LIMITS["units"]))
    if part == "firms":
        return _say("beyond.amount", value=value, version=network.version, most=_large(network.limits["amount"]))
    if part == "claim" and place[1] == "plan":
        return _say("beyond.weight", value=value, most=_large(network.limits["over"]))
    if part == "edits":
        return _count_line(network, network.data["edits"][place[1]][1], value)
    if part == "arrangement" and place[1] == "on":
        return _count_line(network, network.data["arrangement"]["on"][place[2]][0], value)
    if part == "arrangement":
        return _say("beyond.price", value=value, most=_large(network.limits["price"]))
    return _say("beyond.numerator" if part == "outcome" else "beyond.claim", value=value)


def _count_line(network: _Network, name: str, value: str) -> str:
    """More units of a trade than it has, or fewer than none."""
    trade = next(each for each in network.trades if each["name"] == name)
    return _say("beyond.count", value=value, trade=_quoted(name), most=_large(int(trade.get("units", 1))))


def _is_of_step(place: list[Any]) -> bool:
    """Whether a place is in a step of a set, whose first value is how many units and whose second is what each adds."""
    return len(place) > 3 and place[-3] in ("bought", "sold")


def _over_line(network: _Network, place: list[Any], value: str) -> str:
    if place[0] == "claim":
        return _say("beyond.claim_over", value=_numeral(value), most=_large(network.limits["over"]))
    return _say("beyond.outcome_over", value=_numeral(value))


# Names

def _name_line(network: _Network, place: list[Any], value: str) -> str:
    return _say("name.rule", name=_quoted(value))


def _taken_line(network: _Network, place: list[Any], value: str) -> str:
    part, index = place[:2]
    first = [each.get("name") for each in network.data[part]].index(value)
    key = "name.taken_firm" if part == "firms" else "name.taken_trade"
    return _say(key, name=_quoted(value), first=first, index=index)


def _no_firm_line(network: _Network, place: list[Any], value: str) -> str:
    names = network.names(network.firms)
    if value in [trade.get("name") for trade in network.trades]:
        return _say("name.trade_not_firm", name=_quoted(value))
    return _unknown_line("name.no_firm", value, names)


def _no_trade_line(network: _Network, place: list[Any], value: str) -> str:
    if value in network.names(network.firms):
        return _say("name.firm_not_trade", name=_quoted(value))
    return _unknown_line("name.no_trade", value, network.names(network.trades))


def _unknown_line(key: str, value: str, names: list[str]) -> str:
    near = _nearest(value, names)
    if near is not None:
        return _say(f"{key}_near", name=_quoted(value), near=_quoted(near))
    return _say(key, name=_quoted(value), names=_some(names)) if names else _say(f"{key}s", name=_quoted(value))


def _not_own_line(network: _Network, place: list[Any], value: str) -> str:
    """A trade that isn't the firm's own, or is a sale where a purchase is wanted, or a purchase where a sale is."""
    trade, firm = next(trade for trade in network.trades if trade["name"] == value), _owner(network.data, place)
    values = {"trade": _quoted(value), "firm": _quoted(firm)}
    if firm in (trade["seller"], trade["buyer"]):
        return _say("name.no_purchase" if firm == trade["seller"] else "name.no_sale", **values)
    own = network.own(firm)
    values.update(seller=_quoted(trade["seller"]), buyer=_quoted(trade["buyer"]))
    return _say("name.not_own", **values, names=_some(own)) if own else _say("name.none_own", **values)


def _owner(data: Any, place: list[Any]) -> str:
    """The firm whose trades are wanted at a place."""
    claim = data.get("claim")
    if place[0] == "firms":
        return str(data["firms"][place[1]]["name"])
    return str(claim["plan"][place[2]][0] if place[1] == "plan" else claim["firm"])


def _same_trade_line(network: _Network, place: list[Any], value: str) -> str:
    is_entry = (_shape_at(network.data, place[:-1]) or {}).get("name") == "entry"
    items = _part(network.data, place[:-2] if is_entry else place[:-1])
    names = [item[0] if is_entry else item for item in items]
    return _say("name.twice", trade=_quoted(value), first=names.index(value))


# Parts of firms

def _self_trade_line(network: _Network, place: list[Any], trade: dict[str, Any]) -> str:
    return _say("part.itself", trade=_quoted(trade["name"]), firm=_quoted(trade["seller"]))


def _same_bundle_line(network: _Network, place: list[Any], row: list[Any]) -> str:
    bundles = [set(trades) for trades, _ in _part(network.data, place[:-1])[:place[-1]]]
    return _say("part.bundle", first=bundles.index(set(row[0])), bundle=_set(row[0]))


def _no_zero_line(network: _Network, place: list[Any], value: dict[str, Any]) -> str:
    first, count = int(value["from"]), len(value["values"])
    return _say("part.no_zero", **{"from": first}, last=first + count - 1) if count else _say("part.no_values")


def _crossing_line(network: _Network, place: list[Any], value: dict[str, Any]) -> str:
    """Two sets with some trades in common, of which neither contains the other."""
    own, earlier = value["trades"], [each["trades"] for each in _part(network.data, place[:-1])]
    first = next(k for k, other in enumerate(earlier) if _cross(set(own), set(other)))
    return _say("part.crosses", first=first, common=_set([trade for trade in own if trade in earlier[first]]))


def _cross(one: set[Any], other: set[Any]) -> bool:
    return bool(one & other and one - other and other - one)


def _bent_line(network: _Network, place: list[Any], value: str) -> str:
    if _is_of_step(place):
        return _rising_line(network, place, value)
    values, at = _part(network.data, place[:-1]), place[-1]
    return _say("part.bent", value=value, before=values[at - 1], after=values[at + 1])


def _rising_line(network: _Network, place: list[Any], value: str) -> str:
    """A step that adds more than the one before it, or more than the first one of the other list takes away."""
    part, at = _part(network.data, place[:-3]), place[-2]
    if at > 0:
        return _say("part.rising", value=value, before=part[place[-3]][at - 1][1])
    return _say("part.rising_at_none", value=value, bought=part["bought"][0][1])


def _same_pair_line(network: _Network, place: list[Any], pair: list[Any]) -> str:
    pairs = [each[:2] for each in _part(network.data, place[:-1])]
    return _say("part.pair", first=pairs.index(pair[:2]), purchase=_quoted(pair[0]), sale=_quoted(pair[1]))


_LINES: dict[int, Callable[[_Network, list[Any], Any], Optional[str]]] = {
    3: _shape_line, 4: _name_line, 5: _taken_line, 6: _no_firm_line, 7: _self_trade_line, 8: _no_trade_line,
    9: _limit_line, 10: _range_line, 11: _not_own_line, 12: _same_bundle_line, 13: _no_zero_line, 14: _crossing_line,
    15: _bent_line, 17: _same_trade_line, 19: _over_line, 20: _same_pair_line}


def sentence(said: dict[str, Any], asked: bytes) -> Optional[str]:
    """What stands at the place of a fault, and what is wanted there; None where the document doesn't show it.

    said: the program's answer, a dictionary. asked: the document's bytes.
    """
    number, place = said["fault"], said["place"]
    if number == 1:
        return _problem_line(asked)
    if number == 2:
        return _say("fault.length", length=_large(len(asked))) if len(asked) > MOST_BYTES else _say("fault.too_long")
    if number == 16:
        return _say("part.fails", x=_set(said["x"]), y=_set(said["y"]))
    if number == 18:
        return _say("name.no_price", trade=_quoted(place[-1]))
    try:
        data = _read(asked)
        return _LINES[number](_Network(data), place, _found(data, place))
    except (LookupError, TypeError, ValueError, AttributeError, StopIteration):
        return None  # (the document isn't the one that was asked about)
