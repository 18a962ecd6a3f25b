# The network of `drill SIZE START` as a document, drawn as docs/ANSWERS.md says; its trades are t0, t1 and so on. Beyond the 64
# trades of `drill` it goes on in the same way, up to 1,024: beyond 240 with two, three and more times as many firms, so that none
# has more than 60 own trades. Needs jq 1.6 or later, called without input:
#   jq -n -c --argjson size 3 --argjson start 1 -f drill.jq
# With `--argjson units 200` too, each trade has so many units, in a document of version 4 of up to 4,096 trades: each step of a
# producer and of a consumer is of so many, and a middleman is a firm that passes on up to so many. So 1 says the same network.

$ARGS.named.units as $units
# how many times the firms of a small network there are: a middleman has at most a quarter of each 240 trades
| ([$size / 240 | ceil, 1] | max) as $times
| def over($n): . / $n | floor;
# (a negative is written 0 - n, since jq writes the negative of 0 as -0, which is no whole number; products stay below 2^53, up to which jq counts exactly: the multiplier is taken in two parts)
def next: (. * 16838 % 2147483648 * 65536 + . * 20077 + 12345) % 2147483648;
# a number below $n, after what was drawn before
def draw($n): .state |= next | .drawn += [.state | over(65536) % $n];

def draws($i): draw(2) | draw(if $i % 2 == 0 then 50 else 100 end) | draw(10);
# trade $i: from a producer to a middleman, or from a middleman to a consumer
def trade($i; $step; $amount; $number):
  "t\($i)" as $name | ($i | over(2)) as $turn | "M\(($turn + $step) % (8 * $times))" as $middleman
  | if $i % 2 == 0
    then {name: $name, seller: "P\($turn % (4 * $times))", buyer: $middleman, numbers: [-(1 + $amount), $number]}
    else {name: $name, seller: $middleman, buyer: "C\($turn % (4 * $times))", numbers: [$number, 50 + $amount]} end;

reduce range($size) as $i ({state: $start, trades: []};
    .drawn = [] | draws($i) | .trades += [trade($i; .drawn[0]; .drawn[1]; .drawn[2])])
| .trades as $trades
| def sales($firm): [$trades[] | select(.seller == $firm)];
  def purchases($firm): [$trades[] | select(.buyer == $firm)];
  def laminar($own; $at; $from; $values):
    {kind: "laminar", amounts: ($own | map([.name, .numbers[$at]])), sets: [{trades: ($own | map(.name))}
      + if $units then {(if $from < 0 then "sold" else "bought" end): [[$units, -1], [$units, -3], [$units, -5]]} else {from: $from, values: $values} end]};
  def middleman($purchases; $sales):
    if $units then {kind: "laminar", amounts: [($purchases[] | [.name, 0 - .numbers[1]]), ($sales[] | [.name, .numbers[0]])],
      sets: [{trades: ($purchases + $sales | map(.name))}, {trades: ($purchases | map(.name)), bought: [[$units, 0]]}]}
    else {kind: "middleman", costs: ($purchases | map([.name, .numbers[1]])), gains: ($sales | map([.name, .numbers[0]]))} end;
  {version: (if $units then 4 elif $size > 128 then 3 elif $size > 64 then 2 else 1 end),
   firms: (
     [range(4 * $times) | "P\(.)" | {name: .} + laminar(sales(.); 0; -3; [-9, -4, -1, 0])]
     + [range(8 * $times) | "M\(.)" | {name: .} + middleman(purchases(.); sales(.))]
     + [range(4 * $times) | "C\(.)" | {name: .} + laminar(purchases(.); 1; 0; [0, -1, -4, -9])]),
   trades: ($trades | map({name, seller, buyer} + if $units then {units: $units} else {} end))}
