# Explains what an audit has found, for ./tenet: awk -v row=ROW -v check=CHECK -f finding.awk INPUT prints the row, counted from 1, and the numbers
# that its check compares. It decides nothing: the program has found the row, and all rows above it pass.

# a text of which only what can be seen is shown, and no more than 160 of it
function shown(text) {
  gsub(/[^ -~]/, "?", text)
  return length(text) > 160 ? substr(text, 1, 160) " .." : text
}

function counted(count, noun) {
  return sprintf("%.0f", count) " " noun (count == 1 ? "" : "s")
}

function whole(number) {
  return sprintf("%.0f", number)
}

function later(one, other) {
  return one > other ? one : other
}

# by how much a tick is off the one that is due
function off_by(tick, due) {
  return tick > due ? counted(tick - due, "tick") " too late" : counted(due - tick, "tick") " too early"
}

function hop_of(place) {
  return "hop " place " of " $1
}

# ---- what each check compares

function of_known() {
  if (!($1 in accepted)) print "  " $1 " has no accept line"
  else if ($3 < 1 || $3 > hops[$1]) print "  the route of " $1 " has " counted(hops[$1], "hop") ", and hops count from 1"
  else print "  " hop_of($3) " is link " route[$1, $3] ", and not " $4
}

# the row that may stand here
function of_order() {
  if (rows == 0 || $1 != last_channel) {
    if (rows > 0 && place[$1] <= place[last_channel]) print "  " $1 " is opened before " last_channel ", whose rows stand above"
    else print "  the rows of " $1 " begin with packet 1 at hop 1"
  } else if ($2 == last_packet + 1 && $3 == 1 || $2 == last_packet && $3 == last_hop + 1) {
    print "  packet " whole($2 - 1) " has no row at " hop_of($3) ", so it had not left there"
  } else {
    print "  the row above is packet " whole(last_packet) " at hop " last_hop
    print "  below it comes packet " whole(last_packet) " at hop " last_hop + 1 ", where it left that link, or packet " whole(last_packet + 1) " at hop 1"
  }
}

function of_size() {
  if ($5 < 1) print "  a packet has at least 1 unit"
  else if ($5 > smax[$1]) print "  a packet of " $1 " has at most " counted(smax[$1], "unit")
  else print "  at the hop before the packet had " counted(size_at[$1, $2, $3 - 1], "unit")
}

function of_arrival(    before, due) {
  if ($3 == 1) {
    due = arrived_at[$1, $2 - 1]
    print "  packet " whole($2 - 1) " arrived there at " whole(due) ": " off_by($6, due)
    return
  }
  before = route[$1, $3 - 1]
  due = departed_at[$1, $2, $3 - 1] + prop[before]
  print "  it left " before " at " whole(departed_at[$1, $2, $3 - 1]) ", and " before " has prop " prop[before] ", so it arrives at " whole(due) ": " off_by($6, due)
}

# the least tick that the contract allows after the packets before it, and which of its rules decides
function of_eligible(    before, low, due, why, count, burst, tick) {
  low = $6
  why = "it arrived at " whole($6)
  if ($3 > 1 && $1 in jitter) {
    before = route[$1, $3 - 1]
    due = eligible_tick[$1, $2, $3 - 1] + bound[before, given[$1, $3 - 1]] + prop[before]
    if (due > low) why = "under jitter control it is due at " whole(due) ", its eligible tick at " before " with that link's bound and prop"
    low = later(low, due)
  }
  count = rows_at[$1, $3]
  burst = int(interval[$1] / xave[$1])
  tick = count ? eligible_at[$1, $3, count] + xmin[$1] : 0
  if (tick > low) {
    why = "the packet before it was eligible at " whole(eligible_at[$1, $3, count]) ", and XMIN is " xmin[$1]
    low = tick
  }
  tick = count >= burst ? eligible_at[$1, $3, count - burst + 1] + interval[$1] : 0
  if (tick > low) {
    why = "the packet " (burst == 1 ? "" : burst " places ") "before it was eligible at " whole(eligible_at[$1, $3, count - burst + 1]) ", and I is " interval[$1]
    low = tick
  }
  print "  " why ", so it is eligible at " whole(low) ": " off_by($7, low)
}

function of_bound(    work, limit) {
  work = int(($5 + rate[$4] - 1) / rate[$4])
  limit = bound[$4, given[$1, $3]]
  if ($8 < $7 + work) {
    print "  " counted($5, "unit") " at rate " rate[$4] " take " counted(work, "tick") ", so it leaves at " whole($7 + work) " at the soonest: " off_by($8, $7 + work)
  } else {
    print "  it has level " given[$1, $3] " at " $4 ", whose bound is " limit ", so it leaves by " whole($7 + limit) ": " off_by($8, $7 + limit)
  }
}

# ---- reading

# keeps what later rows are compared with
function keep() {
  rows++
  last_channel = $1
  last_packet = $2
  last_hop = $3
  departed_at[$1, $2, $3] = $8
  eligible_tick[$1, $2, $3] = $7
  size_at[$1, $2, $3] = $5
  if ($3 == 1) arrived_at[$1, $2] = $6
  eligible_at[$1, $3, ++rows_at[$1, $3]] = $7
}

function explain() {
  print "tenet: row " row ", on line " NR ", fails " check ": " shown($0)
  if (check == "known") of_known()
  if (check == "order") of_order()
  if (check == "size") of_size()
  if (check == "arrive") of_arrival()
  if (check == "eligible") of_eligible()
  if (check == "bound") of_bound()
}

in_table && rows + 1 == row {
  explain()
  exit
}

in_table {
  keep()
  next
}

reported && $1 == "accept" {
  accepted[$2] = 1
  for (i = 6; i <= NF; i++) given[$2, i - 5] = $i
  next
}

# a route that was found is stated by the report
reported && $1 == "route" {
  for (i = 3; i <= NF && $i != "prop"; i++) route[$2, i - 2] = $i
  hops[$2] = i - 3
  next
}

reported && $0 == "channel,packet,hop,link,size,at,eligible,departed" {
  in_table = 1
  FS = ","
  next
}

reported { next }

$1 == "report" { reported = 1 }

$1 == "link" {
  rate[$2] = $6
  prop[$2] = $10
  for (i = 13; i <= NF && $i != "levels"; i++) { }
  for (level = 1; i + level <= NF; level++) bound[$2, level] = $(i + level)
}

$1 == "open" {
  place[$2] = ++requests
  for (i = 4; i <= NF && $i != "contract"; i++) route[$2, i - 3] = $i
  if ($3 == "route") hops[$2] = i - 4
  xmin[$2] = $(i + 1)
  xave[$2] = $(i + 2)
  interval[$2] = $(i + 3)
  smax[$2] = $(i + 4)
  if ($(i + 7) == "jitter") jitter[$2] = $(i + 8)
}
