# The document in which check judges an outcome. Its arrangement has the signed trades on. With null for the prices the other
# trades are left out, with all that firms say of them, and the prices are those of the contracts: that is an equilibrium
# exactly where no firm would drop contracts, and otherwise check says what judge says. With the prices of an answer that
# completes the outcome all trades stay, and it is an equilibrium too. All worths are counted as often as the denominator says,
# since prices are then its numerators. Needs jq 1.6 or later:
#   jq -c --argjson prices null -f outcome.jq FILE

.outcome as $outcome
| [$outcome.contracts[][0]] as $on
| def is_kept: $prices != null or (. as $name | $on | index($name) != null);
  def counted: . * $outcome.over;
  del(.edits, .outcome, .claim)
  | .arrangement = {on: $on, prices: ($prices // $outcome.contracts)}
  | .trades |= map(select(.name | is_kept))
  | .firms |= map(
      (if .rows then .rows |= map(select(all(.[0][]; is_kept)) | .[1] |= counted) else . end)
      | (if .sets then .sets |= map((.trades |= map(select(is_kept))) | .values |= map(counted)) else . end)
      | (if .keep then .keep |= counted else . end)
      | (if .pairs then .pairs |= map(select(all(.[:2][]; is_kept)) | .[2] |= counted) else . end)
      | reduce ("amounts", "costs", "gains") as $list (.; if .[$list] then .[$list] |= map(select(.[0] | is_kept) | .[1] |= counted) else . end))
