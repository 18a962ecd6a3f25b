// What claims say, as clauses behind "Sie sagt,", and why one isn't so.
export const CLAIMS = {
    claimed: {
        equilibrium: "dass die Anordnung ein Gleichgewicht mit dem Überschuss {surplus} ist",
        solved: "dass ihre Geschäfte und Preise ein Gleichgewicht mit dem Überschuss {surplus} sind",
        prices: "dass ihre Preise zu den Geschäften passen, die zustande kommen",
        better: "dass {firm} mit {bundle} um {gain} mehr hätte",
        impossible: "dass unmöglich ist, was {firm} hat",
        cycle: "dass {nodes} ein Kreis mit den Kosten {cost} sind",
        accepted: "dass jede Firma die Tauscheigenschaft erfüllt",
        fails: "dass {firm} die Tauscheigenschaft zwischen x = {x} und y = {y} nicht erfüllt",
        fails_at: "dass {firm} die Tauscheigenschaft zwischen x = {x} und y = {y} nicht erfüllt, und zwar bei "
            + "{trade}",
        drops: "dass {firm} von den eigenen Verträgen nur {keeps} behalten und um {gain} mehr haben würde",
        drops_impossible: "dass {firm} von den eigenen Verträgen, die zusammen unmöglich sind, nur {keeps} behalten "
            + "würde",
        completes: "dass ihre Preise ergänzen, was unterschrieben ist",
        blocks: "dass {contracts} blockieren würden, was unterschrieben ist",
        blocks_none: "dass keine Verträge blockieren würden, was unterschrieben ist",
        none: "dass ein Plan in Teilen mehr wert ist als jede Menge von Geschäften", unknown: "was sie sagt",
    },
    plan: {
        share: "{firm} hat {parts}.", part: "{share} von {bundle}", part_worth: "{share} von {bundle} ({worth} wert)",
        part_drawn: "{share} von {bundle}, {worth} wert", all: "alles", half: "die Hälfte",
        come_to: "Diese Anteile sind zusammen {sum} wert.",
        as_much: "Keine Menge von Geschäften ist so viel wert wie diese Anteile.",
        as_much_sum: "Diese Anteile sind zusammen {sum} wert, und keine Menge von Geschäften ist so viel wert.",
        more: "Diese Anteile sind zusammen {sum} wert, und keine Menge von Geschäften ist mehr wert als {most}.",
        more_as: {
            one: "Diese Anteile sind zusammen {sum} wert, und keine Menge von Geschäften ist mehr wert als {most}, wie es "
                + "{trades} ist.",
            other: "Diese Anteile sind zusammen {sum} wert, und keine Menge von Geschäften ist mehr wert als {most}, wie "
                + "es {trades} sind.",
        },
        cancel: "Bei Preisen, die den Markt räumen, hätte jede Firma mindestens so viel wie von ihren Anteilen. In "
            + "der Summe über alle Firmen heben sich die Preise auf, also wäre eine Menge von Geschäften so viel "
            + "wert wie diese Anteile oder mehr. Also gibt es keine solchen Preise.",
        cancel_sum: "Bei Preisen, die den Markt räumen, hätte jede Firma mindestens so viel wie von ihren Anteilen. In "
            + "der Summe über alle Firmen heben sich die Preise auf, also wäre eine Menge von Geschäften "
            + "{sum} wert oder mehr. Also gibt es keine solchen Preise.",
        cancel_most: "Bei Preisen, die den Markt räumen, hätte jede Firma mindestens so viel wie von ihren Anteilen. In "
            + "der Summe über alle Firmen heben sich die Preise auf, also wäre {sum} höchstens {most}. Also "
            + "gibt es keine solchen Preise.",
        title: "ein Plan in Teilen", trades: {one: "{count} Geschäft", other: "{count} Geschäften"},
        others: "und {count} mehr",
        drawn: "Keine Menge von Geschäften ist so viel wert wie dieser Plan, also räumen keine Preise den Markt.",
        drawn_sum: "Die Anteile sind zusammen {sum} wert und keine Menge von Geschäften so viel: also räumen keine Preise "
            + "den Markt.",
        drawn_most: "Die Anteile sind zusammen {sum} wert und keine Menge von Geschäften mehr als {most}: für Preise, die "
            + "den Markt räumen, müsste {sum} höchstens {most} sein.",
        below: "Unter dem Namen einer Firma stehen ihre Anteile, mit dem, was diese Bündel ihr wert sind; an einem Pfeil "
            + "steht, wie viel des Geschäfts verkauft wird.",
    },
    none: {
        none: "Keine Preise stellen alle zufrieden. Anteile an Bündeln, in denen jedes Geschäft so oft gekauft wie verkauft wird, "
            + "zeigen es:",
        prices: "Es gibt trotzdem Preise, mit denen alle zufrieden sind, wenn {trades} stattfinden: {prices}.",
        price: "{trade} zu {price}",
    },
    reason: {
        exchange: "{firm} erfüllt sie nicht.", unknown: "Der Grund ist {reason}.",
        impossible: "Was {firm} hat, ist für diese Firma unmöglich.",
        impossible_better: "Was {firm} hat oder wollen soll, ist für diese Firma unmöglich.",
        impossible_drops: "Was {firm} behalten soll, ist für diese Firma unmöglich.",
        impossible_plan: "Ein Teil des Plans ist für {firm} unmöglich.",
        better: "{firm} hätte lieber {bundle}: Bei diesen Preisen ist das für diese Firma am besten, und was sie "
            + "hat, ist es nicht.",
        better_nothing: "{firm} würde lieber kein Geschäft machen: Bei diesen Preisen ist das für diese Firma am "
            + "besten, und was sie hat, ist es nicht.",
        possible: "Es ist möglich.", surplus: "Die Summe der Werte ist {surplus}.",
        nothing_to_compare: "Alle Verträge von {firm} zusammen sind unmöglich, also gibt es nichts zu vergleichen.",
        gain: "Die Firma hätte um {gain} mehr.",
        no_gain: "Die Firma hätte nicht mehr: Ihr Nutzen würde sich um {gain} ändern.",
        holds: "Dort erfüllen sie sie.", arc: "Von {from} zu {to} führt kein Pfeil.",
        cost: "Die Summe der Kosten ist {cost}.",
        cost_not_negative: "Die Summe der Kosten ist {cost}, und das ist nicht negativ.",
        contract: "{trade} ist nicht unterschrieben.",
        over: "Der Nenner dessen, was unterschrieben ist, ist {over}.",
        price: "{trade} ist für {signed} unterschrieben und nicht für {said}.",
        empty: "Sie nennt keinen Vertrag.",
        signed: "{trade} ist schon unterschrieben, zu genau diesem Preis.",
        choice: "{firm} kommt ohne {trade} so gut weg, wie es geht.",
        shares: "Die Summe der Anteile von {firm} ist größer als 1.",
        balance: "{trade} wird nicht so viel verkauft wie gekauft.",
        whole: "Mit {trades} ist die Summe der Werte {surplus}, und der Plan ist nicht mehr wert.",
        whole_none: "Ohne jedes Geschäft ist die Summe der Werte {surplus}, und der Plan ist nicht mehr wert.",
    },
};
