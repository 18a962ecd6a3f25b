// What is said of answers: trades and prices, changes, equilibria, stories, ranges and sessions. `does` is what a firm
// does, and stands behind its name; `do` and `acts` are infinitives behind "würde"; `trades` are a list.
export const ANSWERS = {
    list: {none: "nichts", some: "{most} und {last}", more: "{names} und {rest} weitere", thousands: ".", no_trade: "kein Geschäft"},
    extent: {
        any: "jeder Preis", from_to: "{low} bis {high}", or_less: "{high} oder weniger", or_more: "{low} oder mehr",
    },
    deal: {
        nothing: "Es kommt kein Geschäft zustande.", nothing_signed: "Nichts ist unterschrieben.",
        signed: "Unterschrieben ist: {contracts}.",
        keep_off: "Die anderen Geschäfte unterbleiben bei ihren Preisen: {trades}.",
        unpriced: "{trades}",
        priced: {one: "{trades} für {price}", other: "{trades} für je {price}"},
        sells_unpriced: "{seller} verkauft {trades} an {buyer}",
        sells: {
            one: "{seller} verkauft {trades} für {price} an {buyer}",
            other: "{seller} verkauft {trades} für je {price} an {buyer}",
        },
        sells_units: {
            one: "{seller} verkauft {count} Einheit von {trades} für {price} an {buyer}",
            other: "{seller} verkauft {count} Einheiten von {trades} für je {price} an {buyer}",
        },
        sells_units_unpriced: {
            one: "{seller} verkauft {count} Einheit von {trades} an {buyer}",
            other: "{seller} verkauft {count} Einheiten von {trades} an {buyer}",
        },
        does_sell_units: {
            one: "verkauft {count} Einheit von {trades} für {price} an {buyer}",
            other: "verkauft {count} Einheiten von {trades} für je {price} an {buyer}",
        },
        does_sell_units_unpriced: {
            one: "verkauft {count} Einheit von {trades} an {buyer}",
            other: "verkauft {count} Einheiten von {trades} an {buyer}",
        },
        do_sell_units: {
            one: "{count} Einheit von {trades} für {price} an {buyer} verkaufen",
            other: "{count} Einheiten von {trades} für je {price} an {buyer} verkaufen",
        },
        do_sell_units_unpriced: {
            one: "{count} Einheit von {trades} an {buyer} verkaufen",
            other: "{count} Einheiten von {trades} an {buyer} verkaufen",
        },
        does_buy_units: {
            one: "kauft {count} Einheit von {trades} für {price} von {seller}",
            other: "kauft {count} Einheiten von {trades} für je {price} von {seller}",
        },
        does_buy_units_unpriced: {
            one: "kauft {count} Einheit von {trades} von {seller}",
            other: "kauft {count} Einheiten von {trades} von {seller}",
        },
        do_buy_units: {
            one: "{count} Einheit von {trades} für {price} von {seller} kaufen",
            other: "{count} Einheiten von {trades} für je {price} von {seller} kaufen",
        },
        do_buy_units_unpriced: {
            one: "{count} Einheit von {trades} von {seller} kaufen",
            other: "{count} Einheiten von {trades} von {seller} kaufen",
        },
        does_nothing: "macht kein Geschäft", does_sell_unpriced: "verkauft {trades} an {buyer}",
        does_sell: {
            one: "verkauft {trades} für {price} an {buyer}",
            other: "verkauft {trades} für je {price} an {buyer}",
        },
        does_buy_unpriced: "kauft {trades} von {seller}",
        does_buy: {
            one: "kauft {trades} für {price} von {seller}",
            other: "kauft {trades} für je {price} von {seller}",
        },
        do_nothing: "kein Geschäft machen", do_sell_unpriced: "{trades} an {buyer} verkaufen",
        do_sell: {
            one: "{trades} für {price} an {buyer} verkaufen",
            other: "{trades} für je {price} an {buyer} verkaufen",
        },
        do_buy_unpriced: "{trades} von {seller} kaufen",
        do_buy: {
            one: "{trades} für {price} von {seller} kaufen",
            other: "{trades} für je {price} von {seller} kaufen",
        },
    },
    change: {
        buy_more: "eine Einheit mehr von {trade} bei {partner} kaufen", buy_fewer: "eine Einheit weniger von {trade} bei {partner} kaufen",
        sell_more: "eine Einheit mehr von {trade} an {partner} verkaufen",
        sell_fewer: "eine Einheit weniger von {trade} an {partner} verkaufen",
        buy: "{trade} von {partner} kaufen", sell: "{trade} an {partner} verkaufen",
        keep_back: "{trade} zurückhalten", give_up: "auf {trade} verzichten", plain: "{firm} würde {acts}",
        free: "{firm} würde {acts}, ohne dabei Wert zu verlieren",
        costs: "{firm} würde {acts} und dabei {cost} an Wert verlieren",
        gains: "{firm} würde {acts} und dabei {gain} an Wert gewinnen",
    },
    answer: {
        unknown: "Die Antwort ist {answer}.",
        equilibrium: "Das ist ein Gleichgewicht: Bei diesen Preisen hat jede Firma ein Bündel, das für sie am "
            + "besten ist, und keine würde lieber etwas anderes tun.",
        solved: "Ein Gleichgewicht ist gefunden: Bei diesen Preisen hat jede Firma ein Bündel, das für sie am "
            + "besten ist, und keine würde lieber etwas anderes tun.",
        most: "Die Summe der Werte aller Firmen ist {surplus}, und keine andere Menge von Geschäften hat eine "
            + "größere.",
        most_units: "Die Summe der Werte aller Firmen ist {surplus}, und bei keinen anderen Mengen ist sie größer.",
        prices: "Zu diesen Geschäften gibt es Preise: Bei den folgenden hat jede Firma ein Bündel, das für sie am "
            + "besten ist, und keine würde lieber etwas anderes tun.",
        none_more: "Keine andere Menge von Geschäften hat eine größere Summe der Werte.",
        none_more_units: "Bei keinen anderen Mengen ist die Summe der Werte größer.",
        better: "Das ist kein Gleichgewicht: {firm} stünde anders besser da.",
        as_it_is: "So, wie es ist, gilt: {firm} {does}.",
        rather: "Bei diesen Preisen würde sie lieber {do}: Ihr Nutzen ist dann um {gain} größer, und kein Bündel "
            + "bringt ihr mehr.",
        better_before: {
            one: "{firms} steht im Dokument vor {firm} und ist zufrieden.",
            other: "{firms} stehen im Dokument vor {firm} und sind zufrieden.",
        },
        impossible: "Das ist bei keinen Preisen ein Gleichgewicht: Was {firm} hat, ist für diese Firma unmöglich.",
        no_worth: "Sie {does} und gibt diesem Bündel keinen Wert.",
        impossible_before: {one: "Was {firms} hat, ist möglich.", other: "Was {firms} haben, ist möglich."},
        all_content: "Jede Firma ist zufrieden: Bei diesen Preisen hat jede ein Bündel, das für sie am besten ist.",
        content: {one: "{count} von {all} Firmen ist zufrieden.", other: "{count} von {all} Firmen sind zufrieden."},
        no_sum: "Was eine von ihnen hat, ist unmöglich, und so gibt es keine Summe ihrer Werte.",
        sum: "Die Summe der Werte aller Firmen ist {surplus}.",
        firm_impossible: "{firm} {does}, was für diese Firma unmöglich ist. Am besten würde {firm} {do}: Der Nutzen "
            + "ist dann {most}.",
        firm_content: "{firm} {does}: Wert {worth}, Nutzen {utility}. Die Firma ist zufrieden.",
        firm_objects: "{firm} {does}: Wert {worth}, Nutzen {utility}. Lieber würde {firm} {do}: Der Nutzen ist dann "
            + "{most}, um {gain} größer.",
        accepted: "Jede Firma erfüllt die Tauscheigenschaft: Ihre Käufe ersetzen einander, ihre Verkäufe auch, und "
            + "ein Verkauf mehr lässt sie nie einen Kauf weniger wollen.",
        drops_all: "Was unterschrieben ist, wird nicht eingehalten: {firm} würde die eigenen Verträge lieber "
            + "kündigen.",
        drops_some: "Was unterschrieben ist, wird nicht eingehalten: {firm} würde einige der eigenen Verträge "
            + "lieber kündigen.",
        by_signed: "Nach dem, was unterschrieben ist, gilt: {firm} {does}.",
        keeps_best: "Das kann die Firma nicht: Sie gibt diesem Bündel keinen Wert. Von allem, was sie behalten "
            + "kann, ist das Beste: {keeps}.",
        keeps_rather: "Lieber würde die Firma nur das behalten: {keeps}. Ihr Nutzen ist dann um {gain} größer, und "
            + "anderes zu behalten bringt ihr nicht mehr.",
        drops_before: {
            one: "{firms} steht im Dokument vor {firm} und würde alles behalten.",
            other: "{firms} stehen im Dokument vor {firm} und würden alles behalten.",
        },
        completes: "Was unterschrieben ist, kann bestehen: Jede Firma würde alle ihre Verträge behalten, und für "
            + "alle Geschäfte gibt es Preise, bei denen keine lieber etwas anderes tun würde.",
        blocks: "Was unterschrieben ist, wird blockiert: Jede Firma würde alle ihre Verträge behalten, aber einige "
            + "würden lieber andere unterschreiben.",
        would_sign: "Sie würden unterschreiben:",
        simpler: {
            one: "Das gilt auch bei einem einfacheren Preis, zum Beispiel {prices}.",
            other: "Das gilt auch bei einfacheren Preisen, zum Beispiel {prices}.",
        },
        drill: "Das Netz aus {firms} Firmen und {size} Geschäften, das aus {start} gezogen wird: Für eine Menge von "
            + "Geschäften ist die Summe der Werte {surplus}, und für keine ist sie größer.",
        valid: "Die Behauptung ist gültig. Sie sagt, {claim}, und so ist es.",
        invalid: "Die Behauptung ist nicht gültig. Sie sagt, {claim}.",
        usage: "Die Wörter hinter dem Namen des Programms sind kein Befehl. Nichts wurde gelesen.",
        read_fault: "Das Dokument konnte nicht gelesen werden.",
        no_memory: "Der Speicher war zu Ende, bevor es eine Antwort gab.",
    },
    exchange: {
        fails: "{firm} erfüllt die Tauscheigenschaft nicht, auf der die Theorie des Gleichgewichts beruht.",
        before: {one: "{firms} erfüllt sie.", other: "{firms} erfüllen sie."},
        bundles: "Auf zwei Bündel von {firm} kommt es an, die beide möglich sind: x = {x} und y = {y}.",
        worths: "Auf zwei Bündel von {firm} kommt es an: x = {x} mit dem Wert {of_x} und y = {y} mit dem Wert "
            + "{of_y}, zusammen {sum}.",
        no_trade: "Der Saldo aus Käufen und Verkäufen ist bei y größer als bei x. Kein Geschäft, das y aufgeben "
            + "oder hinzunehmen würde, lässt sich in beiden so umschalten, dass beide möglich bleiben und zusammen "
            + "so viel wert sind wie vorher.",
        trade: "Um y einen Schritt näher zu kommen, würde x das Geschäft {trade} umschalten und y auch: allein, "
            + "wenn der Saldo aus Käufen und Verkäufen bei x größer ist, oder zusammen mit einem anderen Geschäft. "
            + "Auf keine Weise bleiben beide möglich und zusammen so viel wert wie vorher.",
    },
    story: {
        step: "Schritt {place} von {all}",
        contract: "{seller} verkauft {trade} für {price} an {buyer}.",
        no_prices: "Zu diesen Geschäften passen keine Preise. Der Grund ist eine Runde von Änderungen, jede von "
            + "einer Firma:",
        round: "Was diese Firmen an Wert verlieren würden, ist zusammen {cost}. Zusammen würden sie also gewinnen, "
            + "und in der Runde wird jeder Preis einmal bezahlt und einmal eingenommen. Bei allen Preisen würde also "
            + "mindestens eine von ihnen ihre Änderung lieber machen.",
        free: "kostet nichts", costs: "kostet {cost}", gains: "bringt {gain}",
        impossible: "Zu diesen Geschäften passen keine Preise: Was {firm} hat, ist für diese Firma unmöglich.",
        no_worth: "{firm} {does} und gibt diesem Bündel keinen Wert.",
        first_bundle: "Das erste von zwei Bündeln ist für {firm} x = {x}.",
        other_bundle: "Das andere ist y = {y}.",
        out_of_x: "Nimmt man {trade} aus x heraus und in y hinein, so bleiben {x}, und {y}.",
        out_of_y: "Nimmt man {trade} aus y heraus und in x hinein, so bleiben {x}, und {y}.",
        bundle_impossible: "{bundle}, was unmöglich ist", bundle_worth: "{bundle} mit dem Wert {worth}",
        cannot: "{firm} kann das nicht alles tun. Von dem, was die Firma behalten kann, ist das Beste: {keeps}. Ihr "
            + "Nutzen ist dann {could}.",
        rather_keep: "{firm} hat einen Nutzen von {has}. Lieber würde die Firma nur das behalten: {keeps}. Dann "
            + "hätte sie {could}, um {gain} mehr.",
        chain: "Jede Firma würde alle ihre Verträge behalten, aber einige würden lieber andere unterschreiben, die "
            + "eine Kette bilden:",
        would_have: "Nach dem, was unterschrieben ist, hat {firm} einen Nutzen von {now}; mit den eigenen Verträgen "
            + "der Kette wären es {then}.",
        would_leave: "Nach dem, was unterschrieben ist, hat {firm} einen Nutzen von {now}; mit den eigenen "
            + "Verträgen der Kette und ohne {trades} wären es {then}.",
        passes_limit: "Was {firm} hat und hätte, und ob die Firma einen Vertrag kündigen würde, steht hier nicht: In Teilen von "
            + "1/{over} gezählt sind ihre Zahlen größer, als ein Dokument sie haben darf.",
        loses: "{firm} verliert {trade} und wird nicht gefragt.",
        signs_others: "Jede genannte Firma hätte lieber alle diese Verträge, soweit es ihre eigenen sind, was immer "
            + "sie von dem behält, was sie unterschrieben hat. Also passen keine Preise zu dem, was unterschrieben "
            + "ist.",
    },
    range: {
        head: "Die Preise jedes Geschäfts in allen Gleichgewichten. Jenseits davon würde eine der daneben genannten "
            + "Firmen ihre Änderung lieber machen, was immer die anderen Preise sind.",
        one: "{trade}, von {seller} an {buyer}: {range}.",
        several: "{trades}, alle von {seller} an {buyer}: {range}. Für {trade}:",
        only: "{price} und kein anderer Preis", not_below: "nicht unter {price}: {changes}.",
        not_above: "nicht über {price}: {changes}.",
        best_none: "Keine Menge von Geschäften hat eine größere Summe der Werte als gar keines.",
        best: "Keine Menge von Geschäften hat eine größere Summe der Werte als {trades}.",
        best_no_units: "Bei keinen Mengen ist die Summe der Werte größer als ohne jedes Geschäft.",
        best_units: "Bei keinen Mengen ist die Summe der Werte größer als bei {units}.", units: "{count} von {trade}",
        highest: "Alle höchsten Preise zusammen sind damit ein Gleichgewicht.",
        lowest: "Alle niedrigsten Preise zusammen sind damit ein Gleichgewicht.",
    },
    session: {
        nothing: "Nichts wird zugelassen, und nichts wird gesperrt.",
        first: "Ein Gleichgewicht nach jeder Änderung. Am Anfang ist kein Geschäft zugelassen.",
        first_firms: "Ein Gleichgewicht nach jeder Änderung. Am Anfang ist kein Geschäft zugelassen, und alle "
            + "Firmen sind da. Ein Geschäft ist nutzbar, wenn es zugelassen ist und seine beiden Firmen da sind.",
        leaves: "{name} geht", joins: "{name} kommt dazu", admitted: "{name} ist zugelassen",
        barred: "{name} ist gesperrt", all_admitted: "Alle Geschäfte sind zugelassen",
        all_barred: "Alle Geschäfte sind gesperrt",
        off_admitted: "Bei diesen Preisen unterbleiben die anderen zugelassenen Geschäfte: {trades}.",
        off_usable: "Bei diesen Preisen unterbleiben die anderen nutzbaren Geschäfte: {trades}.",
        sum_admitted: "Die Summe der Werte ist {surplus}, und keine andere Menge zugelassener Geschäfte hat eine "
            + "größere.",
        sum_usable: "Die Summe der Werte ist {surplus}, und keine andere Menge nutzbarer Geschäfte hat eine größere.",
        sum_units: "Die Summe der Werte ist {surplus}, und keine anderen Mengen nutzbarer Einheiten haben eine größere.",
        admitted_units: {one: "{count} Einheit von {name} ist zugelassen", other: "{count} Einheiten von {name} sind zugelassen"},
    },
};
