BEGIN { FS = ","; OFS = ","; print "from,to,step,most,rate" }
FNR == 1 { for (k = 1; k <= NF; k++) column[$k] = k; is_firms = NR == 1; next }
{
  if (is_firms) {
    from = $2 == "sells" ? "null" : "I " $1; to = $2 == "buys" ? "null" : "O " $1; sign = $2 == "buys" ? -1 : 1
  } else { from = "O " $1; to = "L " $1 " to " $2; sign = 1 }
  left = all = $column["capacity"] == "" ? 1000000 : $column["capacity"]
  for (k = 1; k <= 2; k++) {
    most = $column["quantity " k] == "" ? left : $column["quantity " k]
    if (most > left) most = left
    left -= most
    if (most > 0) print from, to, k, most, sign * $column["at " k]
  }
  if (!is_firms) print to, "I " $2, 1, all, 0
}
