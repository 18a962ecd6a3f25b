# Eight dealers in a ring, of which each buys from the one before and sells to the next, and matches any purchase with any sale at a
# cost between -50 and 49 that is drawn from a number; beyond 240 trades sixteen dealers and more, so that none has more than 60 own
# trades. Needs jq 1.6 or later, called without input; the size is a count of trades:
#   jq -n -c --argjson size 128 --argjson start 1 -f dealers.jq

# (as in drill.jq)
def next: (. * 16838 % 2147483648 * 65536 + . * 20077 + 12345) % 2147483648;
def draws($n): [limit($n; .state | recurse(next) | . / 65536 | floor)];

([8 * ($size / 240 | ceil), 8] | max) as $many
| [range($size) | {name: "t\(.)", seller: "D\(. % $many)", buyer: "D\((. + 1) % $many)"}] as $trades
| [range($many) | "D\(.)" as $name | [$trades[] | select(.buyer == $name).name as $bought | $trades[] | select(.seller == $name) | [$bought, .name]]] as $pairs
| ({state: ($start | next)} | draws($pairs | map(length) | add)) as $drawn
| {version: (if $size > 128 then 3 elif $size > 64 then 2 else 1 end),
   firms: [range($many) as $k | ($pairs[:$k] | map(length) | add // 0) as $before
     | {name: "D\($k)", kind: "dealer", pairs: [range($pairs[$k] | length) as $at | $pairs[$k][$at] + [$drawn[$before + $at] % 100 - 50]]}],
   trades: $trades}
