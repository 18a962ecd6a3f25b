# The document of the market that the trades make which can be used after the first edits of a document, those that are
# admitted and of which both firms are there: the other trades are left out, with all that firms say of them. A document
# without edits keeps none of its trades, and all of its firms stay. Needs jq 1.6 or later:
#   jq -c --argjson edits 2 -f admitted.jq FILE

def without($name): map(select(. != $name));

[.trades[].name] as $all
| (reduce (.edits // [])[:$edits][] as [$word, $name] ({admitted: [], away: []};
    if $name == "*" and $word == "admit" then .admitted = $all
    elif $name == "*" then .admitted = []
    elif $word == "admit" then .admitted |= without($name) + [$name]
    elif $word == "bar" then .admitted |= without($name)
    elif $word == "leave" then .away |= without($name) + [$name]
    else .away |= without($name) end)) as $said
| [.trades[] | select(all(.seller, .buyer; . as $firm | $said.away | index($firm) == null)) | .name] as $met
| ($said.admitted - ($said.admitted - $met)) as $usable
| def is_usable: . as $name | $usable | index($name) != null;
  del(.edits, .arrangement, .outcome, .claim)
  | .trades |= map(select(.name | is_usable))
  | .firms |= map(
      (if .rows then .rows |= map(select(all(.[0][]; is_usable))) else . end)
      | (if .sets then .sets |= map(.trades |= map(select(is_usable))) else . end)
      | (if .pairs then .pairs |= map(select(all(.[:2][]; is_usable))) else . end)
      | reduce ("amounts", "costs", "gains") as $list (.; if .[$list] then .[$list] |= map(select(.[0] | is_usable)) else . end))
