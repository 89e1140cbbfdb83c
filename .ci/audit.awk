# The audit of a table, written a second time and apart from the program: awk -f audit.awk INPUT reads a scenario, the line `report`, a
# report and its table of packets, all of them in form, and prints what the program is to print of it. It is meant for tables that were
# changed in one field: of the form of a row it judges the names and the numbers alone.

# the least tick from `low` on at which one more packet keeps the contract of a channel, after those above at this hop
function tick_after(low, channel, hop,    count, burst, tick) {
  tick = low
  count = rows_at[channel, hop]
  burst = int(interval[channel] / xave[channel])
  if (count >= 1 && tick < eligible_at[channel, hop, count] + xmin[channel]) tick = eligible_at[channel, hop, count] + xmin[channel]
  if (count >= burst && tick < eligible_at[channel, hop, count - burst + 1] + interval[channel]) tick = eligible_at[channel, hop, count - burst + 1] + interval[channel]
  return tick
}

function later(one, other) {
  return one > other ? one : other
}

# whether a row stands in its order below the last one
function is_in_order() {
  if (rows == 0) return $2 == 1 && $3 == 1
  if ($1 == last_channel) {
    if (!($2 == last_packet && $3 == last_hop + 1) && !($2 == last_packet + 1 && $3 == 1)) return 0
  } else if (!(place[$1] > place[last_channel] && $2 == 1 && $3 == 1)) return 0
  return $2 <= 1 || ($1, $2 - 1, $3) in departed_at
}

# the first check that a row fails, or nothing
function fault(    link, before, low, work) {
  if (!($1 in accepted) || $3 < 1 || $3 > hops[$1] || route[$1, $3] != $4) return "known"
  if (!is_in_order()) return "order"
  if ($5 < 1 || $5 > smax[$1] || ($3 > 1 && $5 != size_at[$1, $2, $3 - 1])) return "size"
  if ($3 == 1) {
    if ($2 > 1 && $6 < arrived_at[$1, $2 - 1]) return "arrive"
    low = $6
  } else {
    before = route[$1, $3 - 1]
    if ($6 != departed_at[$1, $2, $3 - 1] + prop[before]) return "arrive"
    low = $6
    if ($1 in jitter) low = later($6, told_at[$1, $2, $3 - 1] + bound[before, given[$1, $3 - 1]] + prop[before])
  }
  if ($7 != tick_after(low, $1, $3)) return "eligible"
  work = int(($5 + rate[$4] - 1) / rate[$4])
  if ($7 + work > $8 || $8 > $7 + bound[$4, given[$1, $3]]) return "bound"
  return ""
}

# keeps a row that passes
function keep() {
  rows++
  last_channel = $1
  last_packet = $2
  last_hop = $3
  departed_at[$1, $2, $3] = $8
  told_at[$1, $2, $3] = $7
  size_at[$1, $2, $3] = $5
  if ($3 == 1) arrived_at[$1, $2] = $6
  eligible_at[$1, $3, ++rows_at[$1, $3]] = $7
}

# whether the numbers of a row have the form of one
function has_numbers(    i) {
  for (i = 2; i <= 8; i++) if (i != 4 && $i !~ /^(0|[1-9][0-9]*)$/) return 0
  return 1
}

in_table {
  if (!($1 in place) || !($4 in rate) || !has_numbers()) said = "refused " NR " table"
  else if (said == "" && (word = fault()) != "") found = found == "" ? "audit row " rows + 1 " " word : found
  if (said != "") exit
  if (found == "") keep()
  next
}

reported && $1 == "accept" {
  accepted[$2] = 1
  for (i = 6; i <= NF; i++) given[$2, i - 5] = $i
  next
}

# a route that was found is stated by the report
reported && $1 == "route" {
  for (i = 3; $i != "prop"; i++) route[$2, i - 2] = $i
  hops[$2] = i - 3
  next
}

reported && /^channel,/ {
  in_table = 1
  FS = ","
  next
}

reported { next }

$1 == "report" { reported = 1 }

$1 == "link" {
  rate[$2] = $6
  prop[$2] = $10
  for (i = 13; $i != "levels"; i++) { }
  for (level = 1; i + level <= NF; level++) bound[$2, level] = $(i + level)
}

$1 == "open" {
  place[$2] = ++requests
  for (i = 4; $i != "contract"; i++) route[$2, i - 3] = $i
  if ($3 == "route") hops[$2] = i - 4
  xmin[$2] = $(i + 1)
  xave[$2] = $(i + 2)
  interval[$2] = $(i + 3)
  smax[$2] = $(i + 4)
  if ($(i + 7) == "jitter") jitter[$2] = $(i + 8)
}

END {
  if (said != "") print said
  else if (found != "") print found
  else print "audit ok " rows + 0
}
