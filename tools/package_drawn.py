"""Random firms for tools/package_test, and what each bundle of them is worth by the words that say what a builder makes.
The test has put the package on the path.
"""
import itertools
from decimal import Decimal
from fractions import Fraction

import trading_networks as tn


class Firm:
    """A random firm: what the builder is told, its trades, and the worth of a bundle by the words of the builder."""

    def __init__(self, draw):
        self.draw = draw
        self.kind = draw.choice(("seller", "buyer", "maker", "warehouse", "middleman", "dealer", "table"))
        names = [f"t{k}" for k in range(draw.randint(1, 6))]
        cut = {"seller": 0, "buyer": len(names)}.get(self.kind, draw.randint(0, len(names)))
        self.bought, self.sold = names[:cut], names[cut:]
        self.own = {name: self.amount() for name in names}
        self.most, self.by = draw.randint(0, len(names) + 1), abs(self.amount()) if draw.random() < 0.5 else 0
        self.stock, self.room, self.keep = draw.randint(0, 2), draw.randint(0, 2), self.amount()
        self.pairs = {each: self.amount() for each in itertools.product(self.bought, self.sold) if draw.random() < 0.7}
        bundles = [each for size in range(1, len(names) + 1) for each in itertools.combinations(names, size)]
        self.rows = {each: self.amount() for each in bundles if draw.random() < 0.5}
        has_steps = draw.random() < 0.4 and self.kind not in ("middleman", "dealer", "table")
        self.steps = self.drawn_steps() if has_steps else None

    def amount(self):
        number = self.draw.randint(-20, 20)
        decimal, part = Decimal(number) / self.draw.choice((1, 2, 4, 5, 10)), self.draw.choice((1, 1, 2, 3, 7))
        return self.draw.choice((number, float(number), decimal, Fraction(number, part)))

    def drawn_steps(self):
        amounts = sorted((Fraction(self.amount()) for _ in range(self.draw.randint(1, 3))), reverse=self.kind == "buyer")
        counts = [self.draw.randint(0, 3) for _ in amounts]
        if self.draw.random() < 0.3:
            counts[-1] = None
        return list(zip(counts, amounts))

    def built(self):
        """The document with this firm, and one firm at the other end of each trade."""
        market, usual = tn.Document(), {"up_to": self.most, "rises_by": self.by}
        if self.steps is not None:
            usual = {"steps": self.steps, **({"up_to": self.most} if self.draw.random() < 0.5 else {})}
            self.most = usual.get("up_to")
        buys, sells = ({name: self.own[name] for name in side} for side in (self.bought, self.sold))
        if self.kind == "seller":
            market.seller("F", costs=sells, **usual)
        elif self.kind == "buyer":
            words = {{"rises_by": "falls_by"}.get(word, word): value for word, value in usual.items()}
            market.buyer("F", worths=buys, **words)
        elif self.kind in ("maker", "warehouse"):
            more = {"stock": self.stock, "room": self.room, "keep": self.keep} if self.kind == "warehouse" else {}
            getattr(market, self.kind)("F", buys=buys, sells=sells, **usual, **more)
        elif self.kind == "middleman":
            self.keep = self.draw.choice((None, self.keep))
            market.middleman("F", costs=buys, gains=sells, keep=self.keep)
        elif self.kind == "dealer":
            market.dealer("F", costs=self.pairs)
        else:
            market.table("F", worths=self.rows)
        return self.with_others(market)

    def with_others(self, market):
        named = {"dealer": self.pairs, "table": self.rows}.get(self.kind, [self.own])
        for name in sorted({name for each in named for name in each}):
            if name in self.bought:
                market.seller(f"of-{name}", costs={name: 0})
            else:
                market.buyer(f"to-{name}", worths={name: 1})
        return market

    def step(self, k):
        """What the unit number k costs, or is worth, beside its trade; None where there is none."""
        if self.most is not None and k >= self.most:
            return None
        if self.steps is None:
            return (-1 if self.kind == "buyer" else 1) * k * Fraction(self.by)
        ends = itertools.accumulate(k + 1 if count is None else count for count, _ in self.steps)
        return next((amount for end, (_, amount) in zip(ends, self.steps) if k < end), None)

    def worth(self, bundle):
        """What a bundle is worth, by the words that say what the firm does; None where it is impossible."""
        bought, sold = ([name for name in side if name in bundle] for side in (self.bought, self.sold))
        own = sum(Fraction(self.own[name]) for name in bundle)
        if self.kind == "table":
            return Fraction(self.rows[bundle]) if bundle in self.rows else None if bundle else 0
        if self.kind == "dealer":
            ways = [list(zip(bought, each)) for each in itertools.permutations(sold) if len(bought) == len(sold)]
            costs = [sum(Fraction(self.pairs[each]) for each in way) for way in ways if all(each in self.pairs for each in way)]
            return max((-cost for cost in costs), default=None)
        if self.kind == "middleman":
            cost, gain = (sum(Fraction(self.own[name]) for name in side) for side in (bought, sold))
            kept = {(0, 0): 0, (1, 1): gain - cost, (1, 0): None if self.keep is None else Fraction(self.keep) - cost}
            return kept.get((len(bought), len(sold)))
        units = [self.step(k) for k in range(len(sold if self.kind == "seller" else bought))]
        if None in units:
            return None
        if self.kind in ("seller", "buyer"):
            return (own + sum(units)) * (1 if self.kind == "buyer" else -1)
        stock, room, keep = (self.stock, self.room, Fraction(self.keep)) if self.kind == "warehouse" else (0, 0, 0)
        more = len(bought) - len(sold)
        return keep * more - own - sum(units) if -stock <= more <= room else None
