# A market without prices, with the plan that shows it as its claim: rings of an odd number of sellers, who have one item each, and of
# as many buyers, of whom each wants the items of two neighbours together, for 4, or none. Half of each wish is worth more than any
# set of trades. A ring of n has 2 n trades:
#   jq -n -c --argjson rings '[3,3]' -f tools/wishes.jq | crates/market/out/market replay
[$rings | to_entries[] | .key as $ring | range(.value) as $k | "\($ring).\($k)" as $own | "\($ring).\(($k + 1) % .value)" as $next
    | {buyer: "B\($own)", trades: [{name: "a\($own)", seller: "S\($own)"}, {name: "b\($own)", seller: "S\($next)"}]}] as $wishes
| [$wishes[] | .buyer as $buyer | .trades[] | {name, seller, buyer: $buyer}] as $trades
| ($trades | group_by(.seller)) as $sales
| {version: 1,
   firms: [($sales[] | {name: .[0].seller, kind: "laminar", sets: [{trades: map(.name), from: -1, values: [0, 0]}]}),
           ($wishes[] | (.trades | map(.name)) as [$a, $b] | {name: .buyer, kind: "table", rows: [[[$a], 0], [[$b], 0], [[$a, $b], 4]]})],
   trades: $trades,
   claim: {answer: "none", over: 2, plan: [($trades[] | [.seller, [.name], 1]), ($wishes[] | [.buyer, (.trades | map(.name)), 1])]}}
