"""Two tables without a firm and without a lane: the columns, and a row that explains each, which isn't read."""
from trading_networks.lane_tables import EXPLAINED

STEPS = ("quantity 1", "at 1", "quantity 2", "at 2")
STEP_TEXTS = ("so much", "at this for a unit", "so much more (empty: all the rest)", "at this for a unit")
FIRM_TEXTS = {"firm": f"{EXPLAINED} the firm's name", "role": "sells / makes / passes on / buys / must buy",
              "capacity": "the most that it sells or makes or buys", **dict(zip(STEPS, STEP_TEXTS)), "note": "anything"}
LANE_TEXTS = {"from": f"{EXPLAINED} who sends", "to": "who gets", "capacity": "the most that goes by the lane",
              **dict(zip(STEPS, STEP_TEXTS)), "shared": "name = a capacity that lanes share", "note": "anything"}
FIRMS, LANES = ("".join(",".join(cells) + "\n" for cells in (texts, texts.values())) for texts in (FIRM_TEXTS, LANE_TEXTS))
