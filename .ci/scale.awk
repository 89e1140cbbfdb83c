# scale.awk: whether the bars of a page stand on the scale that is drawn above them: of each mark of its axis a value is on the same side as its bar's end.
# And whether requests stand in their order: denied ones, those that are pending, and then those with the least to spare. The page is that which
# `ask page` writes. Prints the bars and the requests that don't.
function value_in(text, name) {
  if (!match(text, name "=\"[^\"]*\"")) return ""
  return substr(text, RSTART + length(name) + 2, RLENGTH - length(name) - 3) + 0
}

# parts_of(TEXT): a time in picoseconds, or a number as it is
function parts_of(text,   pair) {
  split(text, pair, " ")
  return pair[1] * (pair[2] in size ? size[pair[2]] : 1)
}

# number(LINE, COLUMN): the ticks in a cell of this column
function number(line, column) {
  if (!match(line, "data-column=\"" column "\">[0-9]+")) return ""
  line = substr(line, RSTART, RLENGTH)
  sub(/.*>/, "", line)
  return line * tick
}

# bar(LINE, CLASS): the element with this class
function bar(line, class) {
  if (!match(line, "<rect class=\"" class "\"[^>]*>")) return ""
  return substr(line, RSTART, RLENGTH)
}

# stands(LINE, WHAT, VALUE, PLACE): a value and its place are on one side of each mark; places are rounded to a tenth of a percent
function stands(line, what, value, place,   i, name) {
  if (value == "" || place == "") return
  bars++
  for (i = 1; i <= marks; i++) {
    if ((value < at[i] && place > where[i] + 0.1) || (value > at[i] && place < where[i] - 0.1)) {
      name = substr(line, 1, 60)
      print what " at " place "% and " value " beside a mark at " where[i] "% and " at[i] ": " name
    }
  }
}

BEGIN {
  size["s"] = 1000000000000
  size["ms"] = 1000000000
  size["us"] = 1000000
  size["ns"] = 1000
  size["ps"] = 1
  tick = 1
}

match($0, /data-column="tick">[^<]*/) {
  text = substr($0, RSTART, RLENGTH)
  sub(/.*>/, "", text)
  tick = parts_of(text)
}

# the marks of the axis at the head of the table of requests, which is that of packets, too
match($0, /<svg class="axis".*/) {
  line = substr($0, RSTART)
  marks = 0
  while (match(line, /<text y="12" x="[0-9.]*%"[^>]*>[^<]*</)) {
    text = substr(line, RSTART, RLENGTH - 1)
    line = substr(line, RSTART + RLENGTH)
    where[++marks] = value_in(text, "x")
    sub(/.*>/, "", text)
    at[marks] = parts_of(text)
  }
}

/^<tr data-request="/ {
  rank = /data-value="deny"/ ? -2 : /data-value="accept"/ ? number($0, "to_spare") : -1
  if (rows++ && rank < before) print "behind a request that is less tight: " substr($0, 1, 60)
  before = rank
  stands($0, "wanted", number($0, "wanted"), value_in(bar($0, "wanted"), "x"))
  stands($0, "promised", number($0, "promised"), value_in(bar($0, "promised"), " width"))
  stands($0, "worst", number($0, "worst"), value_in(bar($0, "worst"), " width"))
}

/^<tr data-packets-of="/ { stands($0, "promised", number($0, "promised"), value_in(bar($0, "limit"), "x")) }

# the bar of a level is as long as its work is of its bound
/^<tr [^>]*data-(link|share-of)="/ {
  line = $0
  while (match(line, /data-column="work">[0-9]+.*/)) {
    line = substr(line, RSTART)
    work = line
    sub(/[^>]*>/, "", work)
    bound = line
    sub(/.*data-column="bounds">/, "", bound)
    split(line, parts, "</svg>")
    text = parts[1]
    bound = text
    sub(/.*data-column="bounds">/, "", bound)
    whole = bound + 0 < 1 ? 1 : bound + 0
    part = work * 100 / whole
    if (part > 100) part = 100
    place = value_in(bar(text, "work[^\"]*"), " width")
    bars++
    if (place < part - 0.05 || place > part + 0.15) print "work at " place "% and " work + 0 " of " bound + 0 ": " substr($0, 1, 60)
    line = substr(line, length(text) + 1)
  }
}

END { if (!bars) print "no bars" }
