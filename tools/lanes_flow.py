"""What tables by quantities mean, found a second time with scipy: the surplus by a linear program, and the bounds of prices
by paths of least cost in what its flow leaves over. No part of tools/lanes is asked."""
from dataclasses import dataclass

NULL = ("null",)
FAR = 10 ** 12  # a capacity where none is said


@dataclass(frozen=True)
class Arc:
    source: tuple
    target: tuple
    most: int
    cost: int


def arcs_of(network, lot, unit):
    """The arcs of a network, with quantities in lots and amounts of money in units for a lot: null to a firm that sells and
    from one that buys, through one that makes; and from a firm to a lane and on to the next firm."""
    def steps(schedule):
        left = FAR if schedule.capacity is None else int(schedule.capacity.value / lot)
        for step in schedule.steps:
            taken = left if step.quantity is None else min(left, int(step.quantity.value / lot))
            left -= taken
            yield taken, int(step.rate.value * lot / unit)

    for firm in network.firms:
        source = NULL if firm.role == "sells" else (firm.name, "in")
        target = NULL if firm.role == "buys" else (firm.name, "out")
        for most, rate in steps(firm.schedule):
            yield Arc(source, target, most, -rate if firm.role == "buys" else rate)
    for lane in network.lanes:
        listed = list(steps(lane.schedule))
        for most, rate in listed:
            yield Arc((lane.source, "out"), lane.name, most, rate)
        yield Arc(lane.name, (lane.target, "in"), sum(most for most, _ in listed), 0)


def by_scipy(network, lot, unit):
    """The greatest surplus, and the lowest and the highest price of each lane, none where there is no bound; in units."""
    import numpy
    from scipy.optimize import linprog
    from scipy.sparse import coo_matrix
    arcs = [arc for arc in arcs_of(network, lot, unit) if arc.most > 0]
    nodes = {node: k for k, node in enumerate(dict.fromkeys([NULL, *(end for arc in arcs for end in (arc.source, arc.target))]))}
    size = len(arcs)
    ends = [nodes[arc.source] for arc in arcs] + [nodes[arc.target] for arc in arcs]
    kept = coo_matrix((numpy.r_[-numpy.ones(size), numpy.ones(size)], (ends, [*range(size)] * 2)), (len(nodes), size))
    found = linprog([arc.cost for arc in arcs], A_eq=kept.tocsr(), b_eq=numpy.zeros(len(nodes)), method="highs-ds",
                    bounds=[(0, arc.most if arc.most < FAR else None) for arc in arcs])
    flow = [round(count) for count in found.x]
    surplus = -sum(count * arc.cost for count, arc in zip(flow, arcs))
    return surplus, *bounds(arcs, flow, nodes, [lane.name for lane in network.lanes])


def bounds(arcs, flow, nodes, lanes):
    """The lowest and the highest price of each lane: a price is at most that of another node and the cost of an arc from
    there that isn't full, and at least that of another less the cost of an arc to there."""
    over = [(nodes[arc.source], nodes[arc.target], arc.cost) for arc, count in zip(arcs, flow) if count < arc.most]
    over += [(nodes[arc.target], nodes[arc.source], -arc.cost) for arc, count in zip(arcs, flow) if count > 0]
    high = least(over, len(nodes))
    low = least([(target, source, cost) for source, target, cost in over], len(nodes))
    at = [nodes.get(lane) for lane in lanes]
    return ([None if k is None or low[k] is None else -low[k] for k in at], [None if k is None else high[k] for k in at])


def least(arcs, size):
    """What the cheapest way from null to each node costs, none where there is no way."""
    import numpy
    sources, targets, costs = (numpy.array(column, dtype=numpy.int64) for column in zip(*arcs))
    far = numpy.iinfo(numpy.int64).max // 4
    costs_to = numpy.full(size, far)
    costs_to[0] = 0
    for _ in range(size + 1):
        before = costs_to.copy()
        reached = costs_to[sources] < far
        numpy.minimum.at(costs_to, targets[reached], costs_to[sources[reached]] + costs[reached])
        if (before == costs_to).all():
            return [int(cost) if cost < far else None for cost in costs_to]
    raise ValueError("what the flow leaves over has a way round that costs less than nothing")


def in_money(amounts, lot, unit):
    """Prices for a lot in units as prices for a unit of quantity in money."""
    return [None if amount is None else amount * unit / lot for amount in amounts]
