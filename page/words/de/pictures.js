// What stands in pictures, and below them.
export const PICTURES = {
    picture: {
        network: "Netz", ranges: "Preisspannen", price: "Preis", ends: "{seller} an {buyer}", from: "von {firm}",
        to: "an {firm}", at: "{name} für {price}", units: "{count} für {price}", units_of: "{count}/{most} für {price}", units_bare: "{count}/{most}",
        lane_units: "{name}: {units}", several: "mehrere Preise",
        trades: {one: "{count} Geschäft", other: "{count} Geschäfte"},
        too_many: "zu viele Pfeile für ein Bild: nenne eine Firma, um ihre Geschäfte zu sehen",
        takes_place: "kommt zustande", takes_no_place: "kommt nicht zustande", is_signed: "ist unterschrieben",
        not_signed: "ist nicht unterschrieben", not_admitted: "ist nicht zugelassen",
        beyond: "geht über jede Schranke hinaus", could_have: "{utility}, möglich {most}",
        now_then: "{now}, dann {then}",
        rather_sign: "was die farbigen Firmen lieber unterschreiben würden",
        signed: "was unterschrieben ist",
        signed_left: "was unterschrieben ist und eine von ihnen aufgeben würde",
        below_name: "unter dem Namen einer Firma: ihr Nutzen nach dem, was unterschrieben ist, und was sie dann "
            + "haben könnte",
        fails: "{firm} erfüllt die Tauscheigenschaft nicht", worth: "Wert {worth}",
        no_trade: "Kein Geschäft, das y mehr hat, lässt sich in beiden so umschalten, dass beide möglich bleiben "
            + "und zusammen so viel wert sind wie vorher.",
        no_trade_sum: "Kein Geschäft, das y mehr hat, lässt sich in beiden so umschalten, dass beide möglich "
            + "bleiben und zusammen {sum} wert sind wie vorher.",
        trade: "Schaltet x das Geschäft {trade} um und y mit ihm, allein oder mit einem anderen Geschäft, so "
            + "bleiben nie beide möglich und zusammen so viel wert wie vorher.",
        trade_sum: "Schaltet x das Geschäft {trade} um und y mit ihm, allein oder mit einem anderen Geschäft, so "
            + "bleiben nie beide möglich und zusammen {sum} wert wie vorher.",
        round: "Zu diesen Geschäften passen keine Preise: Die Summe der Kosten ist {cost}.",
        costs: "Kosten sind, was die Firma durch ihre Änderung an Wert verliert; negative, was sie gewinnt.",
        no_highest: "kein höchster Preis", no_lowest: "kein niedrigster Preis",
        not_above: "nicht über {price}, denn die Summe dieser Kosten ist {price}",
        not_below: "nicht unter {price}, denn die Summe dieser Kosten ist {sum}",
        would: "{firm} würde", buy: "{trade} kaufen", sell: "{trade} verkaufen", keep_back: "{trade} zurückhalten",
        buy_more: "1 {trade} mehr kaufen", buy_fewer: "1 {trade} weniger kaufen", sell_more: "1 {trade} mehr verkaufen",
        sell_fewer: "1 {trade} weniger verkaufen",
        give_up: "auf {trade} verzichten", cost: "Kosten {cost}",
    },
    caption: {
        equilibrium: "ein Gleichgewicht: Die Summe der Werte ist {surplus}",
        solved: "ein Gleichgewicht ist gefunden: Die Summe der Werte ist {surplus}",
        prices: "Preise, die zu diesen Geschäften passen",
        cycle: "keine Preise: Der Kreis aus {nodes} kostet {cost}",
        better: "{firm} hätte mit {bundle} um {gain} mehr", impossible: "was {firm} hat, ist unmöglich",
        accepted: "jede Firma erfüllt die Tauscheigenschaft", fails: "{firm} erfüllt die Tauscheigenschaft nicht",
        fails_at: "{firm} erfüllt die Tauscheigenschaft bei {at} nicht",
        ranges: "die Preise in allen Gleichgewichten", no_edits: "keine Änderungen",
        session: "nach der letzten Änderung, {edit}: Die Summe der Werte ist {surplus}",
        firms: {
            one: "{count} von {all} Firmen ist zufrieden; die Summe der Werte ist {surplus}",
            other: "{count} von {all} Firmen sind zufrieden; die Summe der Werte ist {surplus}",
        },
        firms_impossible: {
            one: "{count} von {all} Firmen ist zufrieden; was eine von ihnen hat, ist unmöglich",
            other: "{count} von {all} Firmen sind zufrieden; was eine von ihnen hat, ist unmöglich",
        },
        drops: "{firm} würde nur {bundle} behalten und um {gain} mehr haben",
        drops_impossible: "{firm} würde nur {bundle} behalten: was unterschrieben ist, ist unmöglich",
        completes: "Preise, die ergänzen, was unterschrieben ist",
        blocks: "blockiert durch die Kette aus {trades}", valid: "die Behauptung {claim} ist gültig",
        invalid: "die Behauptung {claim} ist nicht gültig: {reason}",
        invalid_at: "die Behauptung {claim} ist nicht gültig: {reason} bei {trade}",
        fault: "Fehler {fault}, {name}: {cause}", fault_at: "bei {place}",
    },
};
