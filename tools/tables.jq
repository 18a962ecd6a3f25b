# Firms in a ring, of which each sells as many trades to the next as it buys from the one before, and is a table with a row for every
# bundle: 1 for a purchase, whichever it is and however many, less 1 for each purchase without a sale and each sale without a purchase.
# Needs jq 1.6 or later, called without input; the size is a count of own trades:
#   jq -n -c --argjson size 10 --argjson firms 25 -f tables.jq

($size / 2 | floor) as $half
| ($half * $firms) as $count
# (letters, where there are enough, so that seven tables of 14 trades are no longer than a document may be)
| [range($count) | if $count <= 52 then [. + (if . < 26 then 65 else 71 end)] | implode else "t\(.)" end] as $names
| def sold($k): [range($half) | $names[$k * $half + .]];
  def bought($k): sold(($k + $firms - 1) % $firms);
  def members($list): . as $bits | [range($list | length) | select($bits / pow(2; .) % 2 | floor == 1) | $list[.]];
  def rows($k): (bought($k) + sold($k)) as $own | range(1; pow(2; 2 * $half)) | members($own[:$half]) as $in
    | (. / pow(2; $half) | floor | members($own[$half:])) as $out
    | [$in + $out, ([$in | length, 1] | min) - (($in | length) - ($out | length) | fabs)];
  {version: (if $count > 128 then 3 elif $count > 64 then 2 else 1 end),
   firms: [range($firms) | {name: "F\(.)", kind: "table", rows: [rows(.)]}],
   trades: [range($count) | {name: $names[.], seller: "F\(. / $half | floor)", buyer: "F\(((. / $half | floor) + 1) % $firms)"}]}
