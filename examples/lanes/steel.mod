# The greatest surplus of firms and lanes, and what a unit is worth at each node.
set ARCS, dimen 3;
param most{ARCS};
param rate{ARCS};
table arcs IN "CSV" "arcs.csv": ARCS <- [from, to, step], most, rate;
set NODES := setof{(i, j, k) in ARCS} i union setof{(i, j, k) in ARCS} j;
var flow{(i, j, k) in ARCS}, >= 0, <= most[i, j, k];
maximize surplus: -sum{(i, j, k) in ARCS} rate[i, j, k] * flow[i, j, k];
subject to price{n in NODES: n != 'null'}:
  sum{(n, j, k) in ARCS} flow[n, j, k] = sum{(i, n, k) in ARCS} flow[i, n, k];
solve;
printf "surplus %.2f\n", surplus;
printf{n in NODES: n != 'null' and substr(n, 1, 2) = 'L '} "%s,%.2f\n", substr(n, 3), price[n].dual;
end;
