# The network of a document as a flow of least cost, in the format of DIMACS, which other solvers read. Each trade is an arc
# from its seller to its buyer, with room for its units; a laminar firm has a node for each set, a middleman two and a dealer one
# for each trade. The greatest surplus is the number of the line `c constant` less the least cost of a flow. A firm that is a table
# is none, and is refused. Needs jq 1.6 or later:
#   jq -r -f flow.jq FILE > FILE.min

def amount($name): map(select(.[0] == $name)[1]) | .[0] // 0;
# a set's parent is the least set around it; of equal sets an earlier one is around a later
def is_around($outer; $inner): ($inner.trades - $outer.trades == [])
  and (($outer.trades | length) > ($inner.trades | length) or (($outer.trades | length) == ($inner.trades | length) and $outer.at < $inner.at));
def innermost: if . == [] then "ground" else max_by([-(.trades | length), .at]) | .node end;
def arc($from; $to; $cost; $units): {from: $from, to: $to, cost: $cost, units: $units};
def arc($from; $to; $cost): arc($from; $to; $cost; 1);

.trades as $trades
| def sides: .name as $firm | [$trades[] | select(.seller == $firm or .buyer == $firm)];
  # each step up lets one more leave the set, and each step down one more enter it: the best steps are taken first
  def values($set): $set.values as $values | (-$set.from) as $zero | $set.node as $node
    | (range($zero + 1; $values | length) | arc($node; $set.parent; $values[. - 1] - $values[.])),
      (range($zero) | arc($set.parent; $node; $values[. + 1] - $values[.]));
  def steps($set): $set.node as $node
    | if $set.values then values($set)
      else (($set.bought // [])[] | arc($node; $set.parent; 0 - .[1]; .[0])), (($set.sold // [])[] | arc($set.parent; $node; 0 - .[1]; .[0])) end;
  # of a firm: the node of each own trade, what the trade is worth by itself, the arcs within, and a constant
  def laminar:
    .name as $firm | (.amounts // []) as $amounts
    | [(.sets // []) | to_entries[] | .value + {at: .key, node: "\($firm) set \(.key)"}] as $sets
    | [$sets[] | . as $set | . + {parent: ([$sets[] | select(is_around(.; $set))] | innermost)}] as $sets
    | {ends: [sides[] | .name as $name | {key: $name, value: {node: ([$sets[] | select(.trades | index($name))] | innermost), worth: ($amounts | amount($name))}}],
       arcs: [steps($sets[])], constant: ([$sets[] | select(.values) | .values[-.from]] | add // 0)};
  def middleman:
    .name as $firm | . as $own
    | {ends: [sides[] | {key: .name, value:
        (if .buyer == $firm then {node: "\($firm) in", worth: (0 - (.name as $name | $own.costs // [] | amount($name)))}
         else {node: "\($firm) out", worth: (.name as $name | $own.gains // [] | amount($name))} end)}],
       arcs: [arc("\($firm) in"; "\($firm) out"; 0), (.keep | values | arc("\($firm) out"; "ground"; 0 - .))], constant: 0};
  def dealer:
    .name as $firm
    | {ends: [sides[] | {key: .name, value: {node: "\($firm) \(.name)", worth: 0}}],
       arcs: [(.pairs // [])[] | arc("\($firm) \(.[0])"; "\($firm) \(.[1])"; .[2])], constant: 0};
  [.firms[] | if .kind == "laminar" then laminar elif .kind == "middleman" then middleman elif .kind == "dealer" then dealer
              else error("\(.name) is a table, which is no flow") end + {name}] as $parts
| ($parts | map({(.name): (.ends | from_entries)}) | add // {}) as $ends
| [($trades[] | $ends[.seller][.name] as $sale | $ends[.buyer][.name] as $purchase | arc($sale.node; $purchase.node; 0 - ($sale.worth + $purchase.worth); .units // 1)),
   $parts[].arcs[]] as $arcs
| ([$arcs[] | .from, .to] + ["ground"] | unique | to_entries | map({(.value): (.key + 1)}) | add) as $number
| "c constant \([$parts[].constant] | add // 0)",
  "p min \($number | length) \($arcs | length)",
  ($arcs[] | "a \($number[.from]) \($number[.to]) 0 \(.units) \(.cost)")
