// What is said of answers: trades and prices, changes, equilibria, stories, ranges and sessions. `does` is what a firm
// does, and stands behind its name; `do` and `acts` are the same behind "would"; `trades` are a list.
export const ANSWERS = {
    list: {none: "nothing", some: "{most} and {last}", more: "{names} and {rest} more", thousands: ",", no_trade: "no trade"},
    extent: {any: "any price", from_to: "{low} to {high}", or_less: "{high} or less", or_more: "{low} or more"},
    deal: {
        nothing: "Nothing is traded.", nothing_signed: "Nothing is signed.", signed: "Signed: {contracts}.",
        keep_off: "Their prices keep the other trades off: {trades}.",
        unpriced: "{trades}",
        priced: {one: "{trades} at {price}", other: "{trades} at {price} each"},
        sells_unpriced: "{seller} sells {trades} to {buyer}",
        sells: {
            one: "{seller} sells {trades} to {buyer} at {price}",
            other: "{seller} sells {trades} to {buyer} at {price} each",
        },
        sells_units: {
            one: "{seller} sells {count} unit of {trades} to {buyer} at {price}",
            other: "{seller} sells {count} units of {trades} to {buyer} at {price} each",
        },
        sells_units_unpriced: {
            one: "{seller} sells {count} unit of {trades} to {buyer}",
            other: "{seller} sells {count} units of {trades} to {buyer}",
        },
        does_sell_units: {
            one: "sells {count} unit of {trades} to {buyer} at {price}",
            other: "sells {count} units of {trades} to {buyer} at {price} each",
        },
        does_sell_units_unpriced: {
            one: "sells {count} unit of {trades} to {buyer}",
            other: "sells {count} units of {trades} to {buyer}",
        },
        do_sell_units: {
            one: "sell {count} unit of {trades} to {buyer} at {price}",
            other: "sell {count} units of {trades} to {buyer} at {price} each",
        },
        do_sell_units_unpriced: {
            one: "sell {count} unit of {trades} to {buyer}",
            other: "sell {count} units of {trades} to {buyer}",
        },
        does_buy_units: {
            one: "buys {count} unit of {trades} from {seller} at {price}",
            other: "buys {count} units of {trades} from {seller} at {price} each",
        },
        does_buy_units_unpriced: {
            one: "buys {count} unit of {trades} from {seller}",
            other: "buys {count} units of {trades} from {seller}",
        },
        do_buy_units: {
            one: "buy {count} unit of {trades} from {seller} at {price}",
            other: "buy {count} units of {trades} from {seller} at {price} each",
        },
        do_buy_units_unpriced: {
            one: "buy {count} unit of {trades} from {seller}",
            other: "buy {count} units of {trades} from {seller}",
        },
        does_nothing: "trades nothing", does_sell_unpriced: "sells {trades} to {buyer}",
        does_sell: {one: "sells {trades} to {buyer} at {price}", other: "sells {trades} to {buyer} at {price} each"},
        does_buy_unpriced: "buys {trades} from {seller}",
        does_buy: {
            one: "buys {trades} from {seller} at {price}",
            other: "buys {trades} from {seller} at {price} each",
        },
        do_nothing: "trade nothing", do_sell_unpriced: "sell {trades} to {buyer}",
        do_sell: {one: "sell {trades} to {buyer} at {price}", other: "sell {trades} to {buyer} at {price} each"},
        do_buy_unpriced: "buy {trades} from {seller}",
        do_buy: {one: "buy {trades} from {seller} at {price}", other: "buy {trades} from {seller} at {price} each"},
    },
    change: {
        buy_more: "buy one more unit of {trade} from {partner}", buy_fewer: "buy one unit fewer of {trade} from {partner}",
        sell_more: "sell one more unit of {trade} to {partner}", sell_fewer: "sell one unit fewer of {trade} to {partner}",
        buy: "buy {trade} from {partner}", sell: "sell {trade} to {partner}", keep_back: "keep back {trade}",
        give_up: "give up {trade}", plain: "{firm} would {acts}", free: "{firm} would {acts} at no cost in worth",
        costs: "{firm} would {acts} at a cost of {cost} in worth",
        gains: "{firm} would {acts} and gain {gain} in worth",
    },
    answer: {
        unknown: "The answer is {answer}.",
        equilibrium: "This is an equilibrium: at these prices each firm has a bundle that is best for [it|them], and "
            + "nobody would rather do something else.",
        solved: "An equilibrium is found: at these prices each firm has a bundle that is best for [it|them], and nobody "
            + "would rather do something else.",
        most: "The worths of the firms sum to {surplus}, and no other set of trades has more.",
        most_units: "The worths of the firms sum to {surplus}, and no other numbers of units have more.",
        prices: "There are prices for these trades: at those below each firm has a bundle that is best for [it|them], and "
            + "nobody would rather do something else.",
        none_more: "No other set of trades has a greater sum of worths.",
        none_more_units: "No other numbers of units have a greater sum of worths.",
        better: "This is no equilibrium: {firm} would do better.",
        as_it_is: "As it is, {firm} {does}.",
        rather: "At these prices [it|they] would rather {do}: [its|their] utility is then greater by {gain}, and no bundle brings "
            + "[it|them] more.",
        better_before: {
            one: "{firms}, which stands before {firm} in the document, is content.",
            other: "{firms}, which stand before {firm} in the document, are content.",
        },
        impossible: "This is no equilibrium at any prices: what {firm} has is impossible for [it|them].",
        no_worth: "It {does}, and gives this bundle no worth.",
        impossible_before: {one: "What {firms} has is possible.", other: "What {firms} have is possible."},
        all_content: "Every firm is content: at these prices each has a bundle that is best for [it|them].",
        content: "{count} of {all} firms are content.",
        no_sum: "What one of them has is impossible, so there is no sum of their worths.",
        sum: "The worths of the firms sum to {surplus}.",
        firm_impossible: "{firm} {does}, which is impossible for [it|them]. [It|They] would best {do}: [its|their] utility is then {most}.",
        firm_content: "{firm} {does}: worth {worth}, utility {utility}. [It|They] [is|are] content.",
        firm_objects: "{firm} {does}: worth {worth}, utility {utility}. [It|They] would rather {do}: [its|their] utility is then "
            + "{most}, greater by {gain}.",
        accepted: "Each firm meets the exchange property: [its|their] purchases are substitutes for each other, so are "
            + "[its|their] sales, and a sale more never makes [it|them] want a purchase less.",
        drops_all: "This outcome isn't kept: {firm} would rather drop [its|their] contracts.",
        drops_some: "This outcome isn't kept: {firm} would rather drop some of [its|their] contracts.",
        by_signed: "By what is signed {firm} {does}.",
        keeps_best: "[It|They] can't do that: [it|they] [gives|give] this bundle no worth. Of all that [it|they] may keep, it is best to keep "
            + "{keeps}.",
        keeps_rather: "[It|They] would rather keep {keeps}: [its|their] utility is then greater by {gain}, and to keep others "
            + "brings [it|them] no more.",
        drops_before: {
            one: "{firms}, which stands before {firm} in the document, would keep all.",
            other: "{firms}, which stand before {firm} in the document, would keep all.",
        },
        completes: "This outcome can stand: each firm would keep all [its|their] contracts, and there are prices for all "
            + "trades at which nobody would rather do something else.",
        blocks: "This outcome is blocked: each firm would keep all [its|their] contracts, but some would rather sign others.",
        would_sign: "They would sign:",
        simpler: {
            one: "So they would at a simpler price, for instance {prices}.",
            other: "So they would at simpler prices, for instance {prices}.",
        },
        drill: "The network of {firms} firms and {size} trades that is drawn from {start}: the worths of its firms "
            + "sum to {surplus} for some set of trades, and to no more for any.",
        valid: "The claim is valid. It says {claim}, and so it is.",
        invalid: "The claim isn't valid. It says {claim}.",
        usage: "The words after the program's name are no command. Nothing was read.",
        read_fault: "The document could not be read.",
        no_memory: "Memory ran out before there was an answer.",
    },
    exchange: {
        fails: "{firm} doesn't meet the exchange property, on which the theory of equilibrium rests.",
        before: {one: "{firms} meets it.", other: "{firms} meet it."},
        bundles: "The two bundles of {firm} to look at are x = {x} and y = {y}, which are both possible.",
        worths: "The two bundles of {firm} to look at are x = {x}, worth {of_x}, and y = {y}, worth {of_y}: {sum} "
            + "together.",
        no_trade: "y has more purchases less sales than x. No trade that y would give up, or take on, can be "
            + "toggled in both of them so that both stay possible and are worth as much together as before.",
        trade: "To come one step closer to y, x would toggle {trade}, and y with it: alone, where x has more "
            + "purchases less sales, or together with one other trade. In no way do both stay possible and worth as "
            + "much together as before.",
    },
    story: {
        step: "Step {place} of {all}",
        contract: "{seller} sells {trade} to {buyer} at {price}.",
        no_prices: "No prices go with these trades. The reason is a round of changes, each by one firm:",
        round: "What these firms would lose in worth sums to {cost}, so in sum they would gain, and in the round "
            + "each price is paid once and got once. So at any prices at least one of them would rather make its "
            + "change.",
        free: "no cost", costs: "costs {cost}", gains: "gains {gain}",
        impossible: "No prices go with these trades: what {firm} has is impossible for [it|them].",
        no_worth: "{firm} {does}, and gives this bundle no worth.",
        first_bundle: "The first of two bundles is x = {x} to {firm}.",
        other_bundle: "The other one is y = {y}.",
        out_of_x: "To take {trade} out of x and into y leaves {x}, and {y}.",
        out_of_y: "To take {trade} out of y and into x leaves {x}, and {y}.",
        bundle_impossible: "{bundle}, which is impossible", bundle_worth: "{bundle}, worth {worth}",
        cannot: "{firm} can't do all that. Of what [it|they] may keep, it is best to keep {keeps}: [its|their] utility is then "
            + "{could}.",
        rather_keep: "{firm} has a utility of {has}. [It|They] would rather keep {keeps}, and have {could}, which is "
            + "{gain} more.",
        chain: "Each firm would keep all [its|their] contracts, but some would rather sign others, which are a chain:",
        would_have: "By what is signed {firm} has a utility of {now}; with [its|their] contracts of the chain [it|they] would have "
            + "{then}.",
        would_leave: "By what is signed {firm} has a utility of {now}; with [its|their] contracts of the chain [it|they] would "
            + "have {then}, and leave {trades}.",
        passes_limit: "What {firm} has and would have, and whether [it|they] would leave a contract, isn't told: counted in parts of "
            + "1/{over} its numbers are larger than a document may have.",
        loses: "{firm} loses {trade}, and isn't asked.",
        signs_others: "Each firm named there, whatever [it|they] [keeps|keep] of what [it|they] [has|have] signed, would rather have all of "
            + "these that are its own. So no prices go with what is signed.",
    },
    range: {
        head: "The prices of each trade over all equilibria. Beyond them, whatever the other prices are, one of the "
            + "firms named beside would rather make [its|their] change.",
        one: "{trade}, from {seller} to {buyer}: {range}.",
        several: "{trades}, each from {seller} to {buyer}: {range}. Of {trade}:",
        only: "{price}, and no other price", not_below: "not below {price}: {changes}.",
        not_above: "not above {price}: {changes}.",
        best_none: "No set of trades has a greater sum of worths than none at all.",
        best: "No set of trades has a greater sum of worths than {trades}.",
        best_no_units: "No numbers of units have a greater sum of worths than none at all.",
        best_units: "No numbers of units have a greater sum of worths than {units}.", units: "{count} of {trade}",
        highest: "All highest prices together are an equilibrium with that.",
        lowest: "All lowest prices together are an equilibrium with that.",
    },
    session: {
        nothing: "Nothing is admitted and nothing is barred.",
        first: "An equilibrium after each edit. At first no trade is admitted.",
        first_firms: "An equilibrium after each edit. At first no trade is admitted and all firms are there. A "
            + "trade can be used where it is admitted and both its firms are there.",
        leaves: "{name} leaves", joins: "{name} joins", admitted: "{name} is admitted", barred: "{name} is barred",
        all_admitted: "Every trade is admitted", all_barred: "Every trade is barred",
        off_admitted: "At these prices the other admitted trades are off: {trades}.",
        off_usable: "At these prices the other usable trades are off: {trades}.",
        sum_admitted: "The worths sum to {surplus}, and no other set of admitted trades has more.",
        sum_usable: "The worths sum to {surplus}, and no other set of usable trades has more.",
        sum_units: "The worths sum to {surplus}, and no other numbers of usable units have more.",
        admitted_units: {one: "{count} unit of {name} is admitted", other: "{count} units of {name} are admitted"},
    },
};
