# Explains a refused line, for ./tenet: awk -v at=LINE -v cause=CAUSE -f refusal.awk SCENARIO prints the line, the field where it can
# be named, and a sentence on the cause. Of the cause `step`, -v left=COUNT says how many steps are left. It decides nothing: the program has
# refused the line, and this only looks for what to show.

# ---- what a field has to be

function is_name(field) {
  return field ~ /^[A-Za-z][A-Za-z0-9_]*$/ && length(field) <= 16 && field != "contract" && field != "plane"
}

function is_number(field) {
  return field ~ /^(0|[1-9][0-9]*)$/ && length(field) <= 18
}

# The words of a line have their places behind its names, which may be spelled like any of them but `contract`.

# the place of the word levels in a link or quota line, or one place after its last field where it doesn't stand there
function place_of_levels(    place) {
  place = $1 == "quota" ? 6 : $13 == "best" ? 15 : 13
  return $place == "levels" ? place : NF + 1
}

# whether this line asks for a route between two nodes
function is_found() {
  return $3 == "from" && $5 == "to"
}

# the place of the word contract in an open line, or one place after its last field
function place_of_contract(    i) {
  if (is_found()) return 7
  for (i = 4; i <= NF && $i != "contract"; i++) { }
  return i
}

# ---- the forms of lines: each place of a name or a number, from left to right

function clear_form() {
  places = 0
}

# the field at this place is a number from low to high
function number(place, label, low, high) {
  places++
  at_place[places] = place
  kind[places] = "number"
  called[places] = label
  least[places] = low
  most[places] = high
}

# the field at this place is a name: a new one, one that is used, or a node
function name(place, label, how, set) {
  places++
  at_place[places] = place
  kind[places] = how
  called[places] = label
  names_in[places] = set
}

function link_form(    i, next_word) {
  name(2, "the link's name", "new", "link")
  name(3, "a node", "node", "")
  name(4, "a node", "node", "")
  number(6, "the rate", 1, 65536)
  number(8, "cap", 1, 65536)
  number(10, "prop", 0, 1048576)
  number(12, "buffer", 0, 262144)
  next_word = 13
  if ($13 == "best") {
    number(14, "best", 1, 1024)
    next_word = 15
  }
  for (i = next_word + 1; i <= NF; i++) number(i, "the bound of level " i - next_word, 1, 1048576)
}

function quota_form(    i) {
  name(2, "the link", "used", "link")
  name(3, "the group", "once", "group")
  number(5, "buffer", 0, 262144)
  for (i = 7; i <= NF; i++) number(i, "the load of level " i - 6, 0, 1048576)
}

function caller_form() {
  name(2, "the caller's name", "new", "caller")
  if ($3 == "group") name(4, "the group", "used", "group")
}

function open_form(    i, from) {
  name(2, "the request's name", "new", "request")
  from = place_of_contract()
  if (is_found()) {
    name(4, "the node where the route begins", "used", "node")
    name(6, "the node where the route ends", "used", "node")
  } else for (i = 4; i < from; i++) name(i, "a link of the route", "used", "link")
  number(from + 1, "XMIN", 1, 1048576)
  number(from + 2, "XAVE", 1, 1048576)
  number(from + 3, "I", 1, 16777216)
  number(from + 4, "SMAX", 1, 65536)
  number(from + 6, "the delay", 1, 67108864)
  if ($(from + 7) == "jitter") number(from + 8, "the jitter", 1, 67108864)
}

function send_form(set, label) {
  name(2, label, "used", set)
  number(3, "COUNT", 1, 262144)
  number(4, "GAP", 1, 1048576)
  number(5, "SIZE", 1, 65536)
}

function form_of_line() {
  clear_form()
  if ($1 == "link") link_form()
  if ($1 == "group") name(2, "the group's name", "new", "group")
  if ($1 == "quota") quota_form()
  if ($1 == "caller") caller_form()
  if ($1 == "open") open_form()
  if ($1 == "send") send_form("own", "the request")
  if ($1 == "pour") send_form("link", "the link")
  if ($1 == "close") name(2, "the request", "used", "own")
  if ($1 == "move") {
    name(2, "the request to move from", "used", "own")
    name(3, "the request to move to", "used", "own")
  }
  if ($1 == "rounds" || $1 == "tail") number(2, "the number of rounds", 0, 524288)
  if ($1 == "do") {
    name(2, "the actor", "used", "actor")
    number(3, "COUNT", 1, 1048576)
  }
}

# ---- which field it is

function is_known(set, field) {
  if (set == "own") return (caller SUBSEP field) in own
  if (set == "actor") return field == "plane" || ("caller" SUBSEP field) in known
  return (set SUBSEP field) in known
}

# whether the field of this place of the form has the cause
function has_cause(i,    field) {
  field = $(at_place[i])
  if (cause == "number") return kind[i] == "number" && !is_number(field)
  if (cause == "range") return kind[i] == "number" && is_number(field) && (field + 0 < least[i] || field + 0 > most[i])
  if (cause == "name") return kind[i] != "number" && !is_name(field) && !(names_in[i] == "actor" && field == "plane")
  if (cause == "known") return kind[i] == "new" && is_known(names_in[i], field) || kind[i] == "once" && ($2 SUBSEP field) in quota
  if (cause == "unknown") return (kind[i] == "used" || kind[i] == "once") && !is_known(names_in[i], field)
  return 0
}

function of_form(    i) {
  form_of_line()
  for (i = 1; i <= places; i++) if (has_cause(i)) {
    tell_field(at_place[i], called[i])
    if (cause == "range") print "  " called[i] " has to be from " grouped(least[i]) " to " grouped(most[i])
    return
  }
}

function tell_field(place, label) {
  print "  field " place ", " label ": " shown($place)
}

function counted(count, noun) {
  return count " " noun (count == 1 ? "" : "s")
}

# a number with a comma before each three digits from the end
function grouped(count,    text, rest) {
  for (text = count ""; length(text) > 3; text = substr(text, 1, length(text) - 3)) rest = "," substr(text, length(text) - 2) rest
  return text rest
}

# a bound that doesn't rise, or a largest packet that takes longer than the first bound
function of_levels(    i, from) {
  from = place_of_levels()
  for (i = from + 2; i <= NF; i++) if ($i + 0 <= $(i - 1) + 0) {
    tell_field(i, "the bound of level " i - from)
    print "  the bounds have to rise from level to level"
    return
  }
  tell_field(from + 1, "the bound of level 1")
  print "  the largest packet, cap, takes " counted(int(($8 + $6 - 1) / $6), "tick") " at this rate; the bound of level 1 has to be at least that"
}

# loads that aren't those of the link's levels, or quotas that come to more than the link has
function of_quota(    level, blocking) {
  if (NF - 6 != levels[$2]) return told_count(counted(NF - 6, "load"), "link " shown($2) " has " counted(levels[$2], "level"))
  blocking = int((cap[$2] + rate[$2] - 1) / rate[$2])
  for (level = 1; level <= levels[$2]; level++) if (taken[$2, level] + $(6 + level) > bound[$2, level] - blocking) {
    tell_field(6 + level, "the load of level " level)
    print "  with this line the quotas of that level come to " taken[$2, level] + $(6 + level) "; the bound of " bound[$2, level] " less the " counted(blocking, "tick") " of the largest packet leaves " bound[$2, level] - blocking
    return
  }
  tell_field(5, "buffer")
  print "  with this line the quotas of the buffer come to " taken[$2, 0] + $5 "; the link has " buffer[$2]
}

# a move between requests that don't agree, or to one that is in use
function of_move() {
  if ($2 == $3) tell_field(3, "the same request as in field 2")
  else if (terms[$2] != terms[$3]) print "  the contracts differ: " terms[$2] " and " terms[$3]
  else if (route_from[$2] != route_from[$3]) print "  the routes begin at different nodes, " route_from[$2] " and " route_from[$3]
  else if (route_to[$2] != route_to[$3]) print "  the routes end at different nodes, " route_to[$2] " and " route_to[$3]
  else print "  " shown($3) " was already sent on, closed, moved from or moved to above"
}

# a number of a contract
function of_contract(    from) {
  from = place_of_contract()
  if ($(from + 1) + 0 > $(from + 2) + 0) tell_field(from + 1, "XMIN, which has to be at most XAVE")
  else if ($(from + 2) + 0 > $(from + 3) + 0) tell_field(from + 2, "XAVE, which has to be at most I")
  else tell_field(from + 3, "I, which has to be less than 257 times XAVE")
}

# a link of a route, or two nodes that are one
function of_route(    i, j, from) {
  if (is_found()) return tell_field(6, "the node where the route ends, and where it begins, too")
  from = place_of_contract()
  for (i = 4; i < from; i++) {
    for (j = 4; j < i; j++) if ($j == $i) return tell_field(i, "a link that is on the route already")
    if (i > 4 && begins[$i] != ends[$(i - 1)]) {
      tell_field(i, "a link that begins at node " begins[$i] ", but the one before it ends at node " ends[$(i - 1)])
      return
    }
  }
}

# a node that can't be reached, or only by too many links: count has the fewest links to each node from the first one
function of_reach(    link, links) {
  count[$4] = 0
  for (links = 1; links <= 32; links++) {
    for (link in begins) if (begins[link] in count && count[begins[link]] == links - 1 && !(ends[link] in count)) count[ends[link]] = links
  }
  tell_field(6, "the node where the route ends")
  if ($6 in count) print "  from " $4 " it takes at least " counted(count[$6], "link") ", and a route has at most 16"
  else print "  no links lead there from " $4
}

# a byte or a space that may not stand there
function of_shape() {
  if ($0 ~ /^\357\273\277/) print "  it begins with a byte order mark; save the file as UTF-8 without one, or as ASCII"
  else if ($0 ~ /\r$/) print "  it ends with a carriage return; tr -d '\\r' removes them"
  else if ($0 ~ /\t/) print "  it has a tab; fields are separated by exactly one space"
  else if ($0 ~ /^ / || $0 ~ / $/) print "  it begins or ends with a space"
  else if ($0 ~ /  /) print "  it has two spaces in a row"
  else if ($0 ~ /[^ -~]/) print "  it has a byte that isn't printable ASCII"
  else of_fields()
}

# ---- fields that may not stand there, where bytes and spaces are right

# a note behind the line, more levels or links than there may be, a word of a later header, or a wrong fixed word; else how many fields it has
function of_fields() {
  if (tell_note() || tell_count() || tell_later_word() || tell_wrong_word()) return
  print "  it has " counted(NF, "field") (usual[$1] == "" ? "" : "; its form is: " usual[$1])
}

# whether a note stands behind the line
function tell_note(    i) {
  for (i = 2; i <= NF; i++) if ($i ~ /^#/) {
    tell_field(i, "the beginning of a note")
    print "  a note has to be on a line of its own"
    return 1
  }
  return 0
}

# whether a link has too many levels, or a route too many links
function tell_count(    count) {
  count = NF - place_of_levels()
  if (($1 == "link" || $1 == "quota") && count > 8) return told_count(count " levels", "a link has at most 8")
  count = place_of_contract() - 4
  if ($1 == "open" && $3 == "route" && count > 16 && count < NF - 3) return told_count("a route of " count " links", "a route has at most 16")
  return 0
}

function told_count(has, most) {
  print "  it has " has "; " most
  return 1
}

# whether it is `best`, `pour`, `from`, `group`, `quota` or `move`, and the header hasn't that word yet
function tell_later_word() {
  if ($1 == "link" && $13 == "best") return is_later(13, 3)
  if ($1 == "pour") return is_later(1, 3)
  if ($1 == "open" && is_found()) return is_later(3, 4)
  if ($1 == "group" || $1 == "quota") return is_later(1, 5)
  if ($1 == "caller" && $3 == "group") return is_later(3, 5)
  if ($1 == "move") return is_later(1, 6)
  return 0
}

# whether the field is a word of a later header, the first that has it being `tenet since`
function is_later(place, since) {
  if (version >= since) return 0
  tell_field(place, "a word of tenet " since " and later")
  print "  this scenario begins with tenet " version
  return 1
}

# whether a fixed word doesn't stand in its place; the first one that doesn't is shown
function tell_wrong_word(    from) {
  if ($1 == "link") return stands(5, "rate") || stands(7, "cap") || stands(9, "prop") || stands(11, "buffer") || stands($13 == "best" ? 15 : 13, "levels")
  if ($1 == "quota") return stands(4, "buffer") || stands(6, "levels")
  if ($1 == "caller") return version >= 5 && stands(3, "group")
  if ($1 != "open") return 0
  from = place_of_contract()
  if (from > NF) return 0
  return stands(3, "route") || stands(from + 5, "delay") || ($(from + 7) != "jitter" && stands(from + 7, "rate"))
}

function stands(place, word) {
  if (place > NF || $place == word) return 0
  print "  field " place " is " shown($place) "; " word " belongs there"
  return 1
}

# ---- counts that are too large

# the packets of a send, a pour or a move, once for each hop; `uncounted` where the hops aren't known
function crossing(    request) {
  if ($1 == "pour") return $3
  request = $1 == "move" ? $3 : $2
  if (request in is_searched) uncounted = 1
  return ($1 == "move" ? load[$2] : $3) * hops[request]
}

# with all above, or the ticks
function of_load(    sum) {
  if ($1 == "tail") print "  (rounds + tail) * links is (" grouped(rounds) " + " grouped($2) ") * " link_count " = " grouped((rounds + $2) * link_count) "; at most 524,288 is allowed"
  else {
    sum = packets + crossing()
    print "  with this line the packets times their hops come to " (uncounted ? "more than 262,144" : grouped(sum) "; at most 262,144 are allowed")
  }
}

function of_step() {
  tell_field(2, "the actor")
  if (left != "") print "  steps left there: " left
}

# ---- a word or a name that isn't there

function of_word() {
  if (!tell_later_word()) tell_field(1, "the first word")
}

# a request that another caller has opened
function tell_owner() {
  if (($1 == "send" || $1 == "close" || $1 == "move") && ("request" SUBSEP $2) in known) print "  " shown($2) " is a request of caller " owner[$2]
}

# ---- sentences

function sentences() {
  means["header"] = "the first line, notes and empty lines aside, has to be one of tenet 1 to tenet 6"
  means["word"] = "a line can't begin with this word here; the order is: header, links, groups, quotas, callers, each with its operations, rounds, tail, schedule, do"
  means["shape"] = "a byte, a space, a fixed word or the number of fields is wrong for such a line"
  means["name"] = "a name is a letter followed by letters, digits and _, at most 16 characters in all, and isn't contract or plane"
  means["number"] = "a number is 1 to 18 decimal digits, without a sign, point, comma or leading 0"
  means["known"] = "a new link, group, caller or request needs a name that no other of its kind has, and a group has at most one quota of a link"
  means["unknown"] = "no link, node, group, request of this caller, or actor has this name above this line"
  means["range"] = "the number is out of range"
  means["many"] = "a scenario has at most 32 links, 4 groups, 64 callers and 1,024 requests, and this is one more"
  means["contract"] = "in a contract XMIN is at most XAVE, XAVE is at most I, and I / XAVE, rounded down, is at most 256"
  means["levels"] = "the bounds of a link have to rise, and its largest packet has to fit into the first"
  means["route"] = "the links of a route are all different, and each begins at the node where the one before it ends; the nodes after from and to differ"
  means["closed"] = "the request was closed above, or moved from; nothing more can be sent on it or moved from it, and a closed one can't be closed again"
  means["load"] = "COUNT times hops, summed over all sends, pours and moves, is at most 262,144, and rounds + tail, times the number of links, is at most 524,288"
  means["reach"] = "no route of at most 16 links leads from the first node to the second"
  means["best"] = "a pour needs a link with best"
  means["quota"] = "a quota has one load for each level of its link, and all quotas of a link have to leave room for its largest packet within each bound and fit into its buffer"
  means["move"] = "a move is from one request to another with the same contract, whose route begins and ends at the same nodes, and which nothing above has used"
  means["end"] = "the input ended before its tail line, or an audit's input before its report line"
  means["cut"] = "the input ended inside this line: its line feed is missing"
  means["step"] = "this do line asks for a step that its actor doesn't have left at this point of the schedule; sends, moves and closes of a denied request take no steps, and neither does a close after a move"
}

function forms_of_lines() {
  usual["link"] = "link NAME NODE NODE rate R cap C prop P buffer U" (version >= 3 ? " [best K]" : "") " levels D1 .. Dn"
  usual["group"] = "group NAME"
  usual["quota"] = "quota LINK GROUP buffer U levels Q1 .. Qn"
  usual["caller"] = "caller NAME" (version >= 5 ? " [group GROUP]" : "")
  usual["open"] = "open NAME route LINK1 .. LINKh contract XMIN XAVE I SMAX delay D rate, or with jitter J in place of rate" (version >= 4 ? ", or with from NODE1 to NODE2 in place of the route" : "")
  usual["send"] = "send NAME COUNT GAP SIZE"
  usual["close"] = "close NAME"
  usual["move"] = "move OLD NEW"
  usual["pour"] = "pour LINK COUNT GAP SIZE"
  usual["rounds"] = "rounds R"
  usual["tail"] = "tail Q"
  usual["schedule"] = "schedule"
  usual["do"] = "do ACTOR COUNT"
}

# a text of which only what can be seen is shown, and no more than 160 of it
function shown(text) {
  gsub(/\t/, "\\t", text)
  gsub(/\r/, "\\r", text)
  gsub(/[^ -~]/, "?", text)
  return length(text) > 160 ? substr(text, 1, 160) " .." : text
}

function tell() {
  print "tenet: line " at " is refused: " shown($0)
  if (cause == "shape") of_shape()
  else if (cause == "levels") of_levels()
  else if (cause == "contract") of_contract()
  else if (cause == "route") of_route()
  else if (cause == "reach") of_reach()
  else if (cause == "header") tell_field(1, "the first word")
  else if (cause == "word") of_word()
  else if (cause == "closed") tell_field(2, "the request")
  else if (cause == "best") tell_field(2, "the link")
  else if (cause == "quota") of_quota()
  else if (cause == "move") of_move()
  else if (cause == "step") of_step()
  else if (cause == "load") of_load()
  else of_form()
  if (cause == "unknown") tell_owner()
  print "  " cause ": " means[cause]
}

NR == at {
  sentences()
  forms_of_lines()
  tell()
  told = 1
  exit
}

# what notes and steps say isn't needed below, and a scenario may have hundreds of thousands of them
/^#/ || /^do / { next }

# the numbers of a link
function keep_numbers(    i, from) {
  from = place_of_levels()
  rate[$2] = $6
  cap[$2] = $8
  buffer[$2] = $12
  levels[$2] = NF - from
  for (i = from + 1; i <= NF; i++) bound[$2, i - from] = $i
}

# the contract and the ends of a request's route. A route that is found isn't searched for here, so its hops aren't known.
function keep_route(    at) {
  at = place_of_contract()
  if (is_found()) is_searched[$2] = 1
  else hops[$2] = at - 4
  terms[$2] = $(at + 1) " " $(at + 2) " " $(at + 3) " " $(at + 4)
  route_from[$2] = is_found() ? $4 : begins[$4]
  route_to[$2] = is_found() ? $6 : ends[$(at - 1)]
}

$1 == "tenet" { version = $2 }

$1 == "link" {
  link_count++
  known["link", $2] = 1
  begins[$2] = $3
  ends[$2] = $4
  known["node", $3] = 1
  known["node", $4] = 1
  keep_numbers()
}

$1 == "group" { known["group", $2] = 1 }

$1 == "quota" {
  quota[$2, $3] = 1
  taken[$2, 0] += $5
  for (i = 7; i <= NF; i++) taken[$2, i - 6] += $i
}

$1 == "caller" {
  known["caller", $2] = 1
  caller = $2
}

$1 == "open" {
  known["request", $2] = 1
  own[caller, $2] = 1
  owner[$2] = caller
  keep_route()
}

$1 == "send" {
  packets += crossing()
  if ($3 > load[$2]) load[$2] = $3
}

$1 == "move" {
  packets += crossing()
  if (load[$2] > load[$3]) load[$3] = load[$2]
}

$1 == "pour" { packets += $3 }

$1 == "rounds" { rounds = $2 }

END {
  if (!told) {
    sentences()
    print "tenet: line " at " is missing"
    print "  " cause ": " means[cause]
  }
}
