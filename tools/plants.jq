# A supply chain whose lanes have units, drawn from a number, as a document of version 4: 3 plants with overtime, 4 warehouses, 25
# customers, and 120 lanes with some 3,000 units in all. Each plant sends to each warehouse, each warehouse to each customer, and
# plants to eight customers by themselves. Needs jq 1.6 or later, called without input:
#   jq -n -c --argjson start 1 -f plants.jq

# (as in drill.jq)
def next: (. * 16838 % 2147483648 * 65536 + . * 20077 + 12345) % 2147483648;
# a number from $low to $high, after what was drawn before
def draw($low; $high): .state |= next | .drawn += [$low + (.state / 65536 | floor) % ($high - $low + 1)];
def lane($seller; $buyer; $low; $high): draw($low; $high) | draw(1; 12)
  | .trades += [{name: "\($seller)-\($buyer)", seller: $seller, buyer: $buyer, units: .drawn[-2], cost: .drawn[-1]}];
def firm: .drawn = [] | reduce range(6) as $_ (.; draw(0; 999)) | .firms += [.drawn];

reduce range(3) as $p ({state: ($start | next), drawn: [], trades: [], firms: []};
    reduce range(4) as $w (.; lane("P\($p + 1)"; "W\($w + 1)"; 50; 90)))
| reduce range(4) as $w (.; reduce range(25) as $c (.; lane("W\($w + 1)"; "C\($c + 1)"; 12; 26)))
| reduce range(8) as $k (.; lane("P\($k % 3 + 1)"; "C\(3 * $k + 1)"; 15; 45))
| reduce range(32) as $_ (.; firm)
| .trades as $trades | .firms as $drawn
| def from($name): [$trades[] | select(.seller == $name)];
  def to($name): [$trades[] | select(.buyer == $name)];
  def freight: map([.name, 0 - .cost]);
  def names: map(.name);
  {version: 4,
   firms: (
     [range(3) | $drawn[.] as $d | "P\(. + 1)" | from(.) as $out | {name: ., kind: "laminar", amounts: ($out | freight), sets: [
        {trades: ($out | names), sold: [[150 + $d[0] % 60, -(20 + $d[1] % 15)], [60 + $d[2] % 30, -(40 + $d[3] % 15)]]}]}]
     + [range(4) | $drawn[3 + .] as $d | "W\(. + 1)" | from(.) as $out | to(.) as $in | {name: ., kind: "laminar", amounts: ($out | freight), sets: [
        {trades: ($in + $out | names)}, {trades: ($in | names), bought: [[80 + $d[0] % 60, -(2 + $d[1] % 4)], [40 + $d[2] % 30, -(7 + $d[3] % 4)]]}]}]
     + [range(25) | $drawn[7 + .] as $d | "C\(. + 1)" | to(.) as $in | {name: ., kind: "laminar", sets: [
        {trades: ($in | names), bought: [[8 + $d[0] % 12, 80 + $d[1] % 50], [5 + $d[2] % 15, 50 + $d[3] % 30], [5 + $d[4] % 20, 25 + $d[5] % 25]]}]}]),
   trades: ($trades | map({name, seller, buyer, units}))}
