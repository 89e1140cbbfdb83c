# Explains a line of an audit's input that is refused after its line `report`, for ./tenet: awk -v at=LINE -v cause=CAUSE -f audit.awk INPUT
# prints the line, the field where it can be named, and a sentence on the cause, which is `accept` or `table`. It decides nothing: the
# program has refused the line, and this only looks for what to show.

function is_number(field) {
  return field ~ /^(0|[1-9][0-9]*)$/ && length(field) <= 18
}

# a text of which only what can be seen is shown, and no more than 160 of it
function shown(text) {
  gsub(/\t/, "\\t", text)
  gsub(/\r/, "\\r", text)
  gsub(/[^ -~]/, "?", text)
  return length(text) > 160 ? substr(text, 1, 160) " .." : text
}

function tell_field(place, label, text) {
  print "  field " place ", " label ": " shown(text)
}

function counted(count, noun) {
  return count " " noun (count == 1 ? "" : "s")
}

# ---- accept NAME delay SUM levels L1 .. Lh

# the levels of a line, one of its link for each hop, and their sum; whether one of these was shown to be wrong
function tell_levels(    hop, link, sum) {
  if (!($2 in hops)) return 0
  if (NF - 5 != hops[$2]) {
    print "  it has " counted(NF - 5, "level") ", but the route of " $2 " has " counted(hops[$2], "link")
    return 1
  }
  for (hop = 1; hop <= hops[$2]; hop++) {
    link = route[$2, hop]
    if (!is_number($(hop + 5)) || $(hop + 5) < 1 || $(hop + 5) + 0 > levels[link]) {
      tell_field(hop + 5, "the level at link " link ", which has levels 1 to " levels[link], $(hop + 5))
      return 1
    }
    sum += bound[link, $(hop + 5) + 0] + prop[link]
  }
  if ($4 != sum) {
    tell_field(4, "the sum", $4)
    print "  the bounds of these levels and the propagations come to " sum
    return 1
  }
  return 0
}

function of_accept() {
  if ($0 ~ /\r$/) print "  it ends with a carriage return; tr -d '\\r' removes them"
  else if ($0 ~ /  / || $0 ~ / $/) print "  it has an extra space; fields are separated by exactly one"
  else if (NF < 6 || $3 != "delay" || $5 != "levels") print "  its form is: accept NAME delay SUM levels L1 .. Lh"
  else if (!($2 in delay)) tell_field(2, "the request, which the scenario doesn't open", $2)
  else if ($2 in accepted) {
    tell_field(2, "the request", $2)
    print "  line " accepted[$2] " is already its accept line"
  } else if (!is_number($4)) tell_field(4, "the sum, which has to be a number", $4)
  else if (!tell_levels()) tell_bounds()
}

# the sum and the last bound are within what was asked for
function tell_bounds() {
  if ($4 + 0 > delay[$2]) {
    tell_field(4, "the sum", $4)
    print "  the delay that " $2 " asks for is " delay[$2]
  } else if ($2 in jitter) print "  the last link's bound is over " jitter[$2] ", the jitter that " $2 " asks for"
}

# ---- a row of the table

# (the limit is a text, since not each awk prints so large a number whole)
function number_of_row(place, label, limit,    digits) {
  digits = limit
  gsub(/,/, "", digits)
  if (is_number(cell[place]) && cell[place] + 0 < digits + 0) return 0
  tell_field(place, label ", which has to be a number below " limit, cell[place])
  return 1
}

function of_row(    count) {
  if ($0 == "") print "  it is empty; each line after the header has to be a row"
  else if ($0 ~ /\r$/) print "  it ends with a carriage return; tr -d '\\r' removes them"
  else if ($0 ~ /"/) print "  it has a quote; fields are written without quotes"
  else if ($0 ~ /[^!-~]/) print "  it has a space, a tab or a byte that isn't printable ASCII"
  else if ((count = split($0, cell, ",")) != 8) print "  it has " counted(count, "field") "; its form is: CHANNEL,PACKET,HOP,LINK,SIZE,AT,ELIGIBLE,DEPARTED"
  else if (!(cell[1] in delay)) tell_field(1, "the channel, which isn't a request of the scenario", cell[1])
  else if (!(cell[4] in levels)) tell_field(4, "the link, which the scenario doesn't have", cell[4])
  else if (number_of_row(2, "the packet", "1,099,511,627,776") || number_of_row(3, "the hop", "256") || number_of_row(5, "the size", "4,294,967,296")) return
  else if (number_of_row(6, "at", "1,099,511,627,776") || number_of_row(7, "eligible", "1,099,511,627,776")) return
  else number_of_row(8, "departed", "1,099,511,627,776")
}

# ---- sentences

function sentence() {
  if (cause == "accept") return "an accept line has to be as in a report for this scenario: a request, the sum, and a level for each link, within what was asked for; each request has at most one"
  return "each line after the table's header, channel,packet,hop,link,size,at,eligible,departed, has to be a row"
}

NR == at {
  print "tenet: line " at " is refused: " shown($0)
  if (cause == "accept") of_accept()
  else of_row()
  print "  " cause ": " sentence()
  told = 1
  exit
}

$0 == "report" { reported = 1 }

reported && $1 == "accept" { accepted[$2] = NR }

reported { next }

$1 == "link" {
  prop[$2] = $10
  for (i = 13; i <= NF && $i != "levels"; i++) { }
  levels[$2] = NF - i
  for (level = 1; level <= levels[$2]; level++) bound[$2, level] = $(i + level)
}

$1 == "open" {
  for (i = 4; i <= NF && $i != "contract"; i++) if ($3 == "route") route[$2, i - 3] = $i
  if ($3 == "route") hops[$2] = i - 4
  delay[$2] = $(i + 6)
  if ($(i + 7) == "jitter") jitter[$2] = $(i + 8)
}

END {
  if (!told) {
    print "tenet: line " at " is missing"
    print "  " cause ": the input ended before the table's header, channel,packet,hop,link,size,at,eligible,departed"
  }
}
