// The form for firms and trades.
export const FORM = {
    number: {
        stays: "Bis dahin gilt {now}.",
        wanted: "Hier fehlt eine ganze Zahl.", none: "{text} ist keine Zahl.",
        not_whole: "{text} ist nicht ganz. Alle Zahlen sind hier ganz: zähle in einer kleineren Einheit, etwa Cent.",
        fraction: "{text} ist ein Bruch. Alle Zahlen sind hier ganz: nimm jede mit derselben Zahl mal.",
        too_long: "{text} ist zu lang: eine Zahl hat höchstens {most} Ziffern.", between: "Gefragt ist eine ganze Zahl von {least} bis {most}.",
    },
    naming: {
        wanted: "Hier fehlt ein Name.", taken: "{name} gibt es schon.", too_long: "Ein Name hat höchstens {most} Zeichen.",
    },
    build: {
        too_long: "Das Dokument ist zu lang, um hier betrachtet zu werden.",
        no_object: "Ein Formular kann dieses Dokument nicht ändern: Sein Fehler steht unter „Dokument“. „Neu“ "
            + "beginnt ein anderes.",
    },
    kind: {
        seller_one: "verkauft eines (gleich welches)", seller_many: "verkauft bis zu so viele", buyer_one: "kauft eines (gleich welches)",
        buyer_many: "kauft bis zu so viele", maker: "Hersteller: kauft das eine, verkauft das andere",
        middleman: "Zwischenhandel: kauft eines und verkauft es weiter", dealer: "Handel: verkauft Gekauftes weiter, in Paaren",
        laminar: "als Beträge, Kapazitäten und Stufen", table: "als Zahlen für jedes Bündel",
    },
    doubt: {
        all_unwanted: "Niemand würde {count} Geschäfte je wollen, bei denen weniger gezahlt wird, als der Verkauf verlangt: {trades}.", remove_trades: "Diese Geschäfte entfernen",
        title: "Ist das so gemeint?", more: "Noch {count} von dieser Art.", idle: "{firm} hat kein Geschäft.", remove_firm: "Firma entfernen",
        sells_often: "{firm} kann {count} Mal verkaufen: nichts sagt, dass es nur eines gibt.", sell_one: "Nur eines verkaufen", buy_one: "Nur eines kaufen",
        buys_none: "{firm} hat nichts zu verkaufen, weil nichts gekauft wird.", sells_none: "{firm} kauft und kann es nicht weiterverkaufen.",
        apart: "Was {firm} verkauft, hat nichts damit zu tun, was {firm} kauft.", middleman: "Zwischenhandel daraus machen", never: "{firm} kann das Geschäft {trade} nicht haben.",
        pair: "Ein Paar mit jedem anderen machen", remove_trade: "Geschäft entfernen", unwanted: "Niemand würde {trade} je wollen: {buyer} zahlt bis {most}, und {seller} verkauft ab {least}.",
    },
    does: {
        seller_one: "Verkauft eines, gleich an wen, ab {price}.", seller_many: "Verkauft bis zu {most}, das erste ab {price}, jedes weitere nicht billiger.",
        buyer_one: "Kauft eines, gleich von wem, und zahlt bis {price}.", buyer_many: "Kauft bis zu {most} und zahlt für das erste bis {price}, für jedes weitere nicht mehr.",
        maker: "Macht aus Gekauftem, was verkauft wird, eines aus einem, bis zu {most}, das erste für {price}.",
        middleman: "Kauft eines und verkauft es weiter; behält es nur, wo das gesagt ist.", dealer: "Verkauft Gekauftes weiter, jeden Kauf als einen Verkauf, mit dem er ein Paar ist.",
        laminar: "Jedes Geschäft ist seinen Betrag wert, und jede Menge gibt eine Zahl dazu, je nachdem, wie viele ihrer Geschäfte zustande kommen.",
        table: "Was wie viel wert ist, steht Bündel für Bündel da.",
        units: "Jede Einheit eines Geschäfts ist seinen Betrag wert, und jede Menge gibt für jede weitere Einheit eine Zahl dazu.",
    },
    form: {
        sells_from: "Verkauft ab", costs_more: "Jedes weitere kostet mehr als das erste, um", sells_to: "Je Geschäft, ab", pays_up_to: "Zahlt bis",
        worth_less: "Jedes weitere ist weniger wert als das erste, um", buys_from: "Je Geschäft, bis", worth_to: "Was {name} wert ist", makes_at: "Macht eines für",
        makes_more: "Jedes weitere kostet mehr als das erste, um", adds: "Kostet daneben, je Geschäft", at_most: "höchstens", nth: "Nr. {count}", nth_one: "Nr. {count}: {says}",
        add_seller: "Anbieter hinzufügen", add_buyer: "Nachfrager hinzufügen", add_middleman: "Zwischenhandel hinzufügen",
        kind_asked: "Eine andere Art behält nicht alle Zahlen.", kind_change: "Art wechseln", kind_keep: "So lassen",
        the_firm: "Die Firma {name}", name_of: "Name von {name}", kind: "Art",
        remove: "Entfernen", remove_it: "Entfernen",
        remove_firm: "{name} und die Geschäfte dieser Firma entfernen",
        no_trades: "Sie hat noch keine Geschäfte: füge unten welche hinzu.",
        worths: "Werte", worth: "Wert", in_row: "{name} in Zeile {row}", worth_of_row: "Wert von Zeile {row}",
        remove_row: "Die Zeile mit {trades} entfernen", add_row: "Zeile hinzufügen",
        of_rows: "Was jedes Bündel ihrer Geschäfte wert ist. Ein Bündel ohne Zeile ist unmöglich; nichts ist 0 "
            + "wert, wenn es keine hat.",
        more_rows: {
            one: "{count} weitere Zeile steht im Dokument.",
            other: "{count} weitere Zeilen stehen im Dokument.",
        },
        amounts: "Beträge", amount_of: "Betrag von {name}",
        of_amounts: "Was jedes Geschäft für sich wert ist; ein Verkauf meist weniger als 0.",
        sets: "Mengen von Geschäften", add_set: "Kapazität oder Stufen hinzufügen", set: "Menge {set}",
        in_set: "{name} in Menge {set}", set_count: "Menge {set}, {count}", remove_set: "Menge {set} entfernen",
        counts: "Saldo", numbers: "Zahlen",
        of_sets: "Der Saldo einer Menge ist die Zahl ihrer Käufe weniger die ihrer Verkäufe. Er darf nur vom "
            + "kleinsten bis zum größten gehen, was eine Kapazität ist, und zu jedem gehört eine Zahl, was Stufen "
            + "sind.",
        least: "kleinster", least_of: "Der kleinste Saldo von Menge {set}", greatest: "größter",
        greatest_of: "Der größte Saldo von Menge {set}", at_zero: "bei 0", at_sold: "bei {count} verkauft",
        at_bought: "bei {count} gekauft", middleman: "Kosten und Erträge", costs: "Kosten",
        cost_of: "Kosten von {name}", gains: "Erträge", gain_of: "Ertrag von {name}",
        of_middleman: "Was ein Kauf neben seinem Preis kostet und was ein Verkauf neben seinem Preis bringt. Eine "
            + "Ware ist wie die andere.",
        keeps: "Sie kann eine Ware behalten", worth_of_kept: "Wert einer Ware, die behalten wird", pairs: "Paare",
        as: "{name} als", pair: "{purchase} als {sale}", costs_it: "kostet",
        of_pairs: "Welcher Kauf als welcher Verkauf weiterverkauft werden kann und was das kostet.",
        no_pairs: "Sie hat noch kein Paar aus einem Kauf und einem Verkauf: füge unten auf beiden Seiten Geschäfte "
            + "hinzu.",
        of_trades: "Von {count} Geschäften die dieser Firma.", two_firms: "Zu einem Geschäft gehören zwei Firmen.",
        trade_of: "Geschäft {name}", from: "von", to: "an", trade_from: "Geschäft {name} von",
        trade_to: "Geschäft {name} an", remove_trade: "Das Geschäft {name} entfernen",
        new_from: "Ein neues Geschäft von", new_to: "Ein neues Geschäft an", add_trade: "Geschäft hinzufügen",
        units: "Einheiten", units_of: "Einheiten von {name}", give_units: "Geschäften viele Einheiten geben", steps: "Stufen", add_step: "Stufe hinzufügen", how_many: "wie viele",
        of_steps: "Jede Stufe sagt, für wie viele weitere Einheiten eine Zahl gilt; nach der letzten gibt es keine mehr. Beim Verkauf und beim Machen "
            + "fallen die Zahlen nie, beim Kauf steigen sie nie.",
        worth_beside: "Wert daneben, je Geschäft", bought: "Gekauft", sold: "Verkauft", each_adds: "jede gibt dazu", in_list: "Menge {set}, {list}: {says}",
        of_unit_sets: "Der Saldo einer Menge ist, wie viele Einheiten ihrer Geschäfte gekauft werden, weniger die verkauften. Jede weitere gibt dazu, was ihre "
            + "Stufe sagt, was nie steigt, und nach der letzten Stufe ist nichts möglich.",
    },
};
