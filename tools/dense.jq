# A network of four sellers and four buyers, each with a capacity of half its trades, whose amounts are drawn from a number: trade
# k goes from S(k) to B(k + k / 4), counted in fours. Beyond 240 trades there are eight, twelve and more of each, and it is counted in
# so many, so that none has more than 60 own trades. Needs jq 1.6 or later, called without input:
#   jq -n -c --argjson size 32 --argjson start 1 -f dense.jq
# With `--argjson units 200` too, each trade has so many units, in a document of version 4, and each capacity is as many times as large.

# (as in drill.jq)
def next: (. * 16838 % 2147483648 * 65536 + . * 20077 + 12345) % 2147483648;
def draws($n): [limit($n; .state | recurse(next) | . / 65536 | floor)];

$ARGS.named.units as $units
| def firm($name; $own; $sign): ([$own | length / 2 | floor, 1] | max) as $most
    | {name: $name, kind: "laminar", amounts: $own, sets: [{trades: ($own | map(.[0]))}
       + if $units then {(if $sign < 0 then "sold" else "bought" end): [[$most * $units, 0]]}
         else {from: (if $sign < 0 then -$most else 0 end), values: [range($most + 1) | 0]} end]};

  (if $units then 4 else [4 * ($size / 240 | ceil), 4] | max end) as $many
| ({state: ($start | next)} | draws(2 * $size)) as $drawn
| [range($size) | {name: "t\(.)", seller: "S\(. % $many)", buyer: "B\((. + (. / $many | floor)) % $many)", cost: ($drawn[2 * .] % 100), gain: (50 + $drawn[2 * . + 1] % 100)}] as $trades
| {version: (if $units then 4 elif $size > 128 then 3 elif $size > 64 then 2 else 1 end),
   firms: [
     (range($many) | "S\(.)" as $name | firm($name; [$trades[] | select(.seller == $name) | [.name, 0 - .cost]]; -1)),
     (range($many) | "B\(.)" as $name | firm($name; [$trades[] | select(.buyer == $name) | [.name, .gain]]; 1))],
   trades: ($trades | map({name, seller, buyer} + if $units then {units: $units} else {} end))}
