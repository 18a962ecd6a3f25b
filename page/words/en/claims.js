// What claims say, after "It says", and why one isn't so.
export const CLAIMS = {
    claimed: {
        equilibrium: "that the arrangement is an equilibrium of the surplus {surplus}",
        solved: "that its trades and prices are an equilibrium of the surplus {surplus}",
        prices: "that its prices support the trades that are on",
        better: "that {firm} would gain {gain} with {bundle}", impossible: "that what {firm} has is impossible",
        cycle: "that {nodes} are a cycle of the cost {cost}", accepted: "that each firm meets the exchange property",
        fails: "that {firm} fails the exchange property between x = {x} and y = {y}",
        fails_at: "that {firm} fails the exchange property between x = {x} and y = {y}, at {trade}",
        drops: "that {firm} would keep {keeps} of its contracts and gain {gain}",
        drops_impossible: "that {firm} would keep {keeps} of its contracts, which together are impossible",
        completes: "that its prices complete what is signed", blocks: "that {contracts} would block what is signed",
        blocks_none: "that no contracts would block what is signed",
        none: "that a plan in parts is worth more than any set of trades", unknown: "what it says",
    },
    plan: {
        share: "{firm} has {parts}.", part: "{share} of {bundle}", part_worth: "{share} of {bundle} (worth {worth})",
        part_drawn: "{share} of {bundle}, worth {worth}", all: "all", half: "half",
        come_to: "These shares come to {sum}.",
        as_much: "No set of trades is worth as much as these shares.",
        as_much_sum: "These shares come to {sum}, and no set of trades is worth as much.",
        more: "These shares come to {sum}, and no set of trades is worth more than {most}.",
        more_as: {
            one: "These shares come to {sum}, and no set of trades is worth more than {most}, as {trades} is.",
            other: "These shares come to {sum}, and no set of trades is worth more than {most}, as {trades} are.",
        },
        cancel: "At prices that clear the market each firm would have at least as much as from its shares. In the "
            + "sum over all firms the prices cancel, so some set of trades would be worth what these shares come "
            + "to or more. So there are no such prices.",
        cancel_sum: "At prices that clear the market each firm would have at least as much as from its shares. In the "
            + "sum over all firms the prices cancel, so some set of trades would be worth {sum} or more. So there "
            + "are no such prices.",
        cancel_most: "At prices that clear the market each firm would have at least as much as from its shares. In the "
            + "sum over all firms the prices cancel, so {sum} would be at most {most}. So there are no such prices.",
        title: "a plan in parts", trades: {one: "{count} trade", other: "{count} trades"},
        others: "and {count} more",
        drawn: "No set of trades is worth as much as this plan, so no prices clear the market.",
        drawn_sum: "The shares come to {sum}, and no set of trades to as much: so no prices clear the market.",
        drawn_most: "The shares come to {sum}, and no set of trades to more than {most}: prices that clear the market "
            + "would need {sum} to be at most {most}.",
        below: "Below the name of a firm are its shares, with what these bundles are worth to it; on an arrow is how "
            + "much of the trade is sold.",
    },
    none: {
        none: "No prices content all. Shares of bundles, in which each trade is bought as much as it is sold, show it:",
        prices: "There are prices all the same at which all are content, with {trades} taking place: {prices}.",
        price: "{trade} at {price}",
    },
    reason: {
        exchange: "{firm} doesn't.", unknown: "The reason is {reason}.",
        impossible: "What {firm} has is impossible for it.",
        impossible_better: "What {firm} has, or what it is said to want, is impossible for it.",
        impossible_drops: "What {firm} is said to keep is impossible for it.",
        impossible_plan: "A part of the plan is impossible for {firm}.",
        better: "{firm} would rather have {bundle}: at these prices that is best for it, and what it has isn't.",
        better_nothing: "{firm} would rather trade nothing: at these prices that is best for it, and what it has "
            + "isn't.",
        possible: "It is possible.", surplus: "The worths sum to {surplus}.",
        nothing_to_compare: "All contracts of {firm} together are impossible, so there is nothing to compare with.",
        gain: "It would gain {gain}.",
        no_gain: "It would gain nothing: its utility would change by {gain}.",
        holds: "There they meet it.", arc: "There is no arc from {from} to {to}.", cost: "The costs sum to {cost}.",
        cost_not_negative: "The costs sum to {cost}, which isn't negative.",
        contract: "{trade} isn't signed.", over: "The denominator of what is signed is {over}.",
        price: "{trade} is signed at {signed}, and not at {said}.",
        empty: "It names no contract.",
        signed: "{trade} is signed already, at this very price.",
        choice: "{firm} does as well as it can without {trade}.",
        shares: "The shares of {firm} sum to more than 1.", balance: "{trade} isn't sold as much as it is bought.",
        whole: "With {trades} the worths sum to {surplus}, and the plan is worth no more.",
        whole_none: "No trade at all is worth {surplus}, and the plan is worth no more.",
    },
};
