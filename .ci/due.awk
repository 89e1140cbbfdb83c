# due.awk: what the page of a network has to say, in the form of page.awk, from what other programs say of it. Each file is named by a word
# before it: what=table, links and channels are answers of ask as CSV, what=where those of all requests without heads, each line behind the request's name, what=scenario is
# the scenario, and what=report and what=packets what tenet plays of it. The lines of where are read twice, the second time with again=1.
function told(kind, name, column, value) { print kind, name, column, value }

# timed(KIND, NAME, COLUMN, TICKS): a number of ticks, or a dash, and how long they are
function timed(kind, name, column, ticks) {
  told(kind, name, column, ticks == "" ? "–" : ticks)
  if (ticks != "" && tick) told(kind, name, column "_time", time_of(ticks))
}

# time_of(TICKS): in the largest unit of which it has one
function time_of(ticks,   n, i) {
  n = ticks * tick
  if (n == 0) return "0 s"
  for (i = 1; i < 5 && n < size[i]; i++) continue
  return sprintf("%.12g %s", n / size[i], unit[i])
}

# at(COLUMN): the field in a column of the table
function at(column) { return $place[column] }

function dash(value) { return value == "" ? "–" : value }

# per_mille(WORK, BOUND): rounded up
function per_mille(work, bound) {
  if (bound < 1) bound = 1
  return int((work * 1000 + bound - 1) / bound)
}

# fullest(WORK, BOUNDS, ROOM): the number of the fullest level, its part in percent, and the word and the numbers for it; one that is full is before
# one that isn't
function fullest(work, bounds, room,   w, b, r, n, i, part, full, best) {
  n = split(work, w, " ")
  split(bounds, b, " ")
  split(room, r, " ")
  best = -1
  level = 1
  percent = 0
  for (i = 1; i <= n; i++) {
    part = per_mille(w[i], b[i])
    full = part >= 900 || (w[i] > 0 && room != "" && r[i] == 0)
    if (part + 1000000 * full > (best < 0 ? 0 : best)) {
      best = part + 1000000 * full
      level = i
      percent = int((part + 9) / 10)
    }
  }
  word = best >= 1000000 ? "full" : percent > 60 || best == 600 ? "busy" : "free"
  numbers = w[level] " of " b[level] " ticks at level " level
  return best < 0 ? 0 : best
}

BEGIN {
  OFS = "\t"
  split("1000000000000 1000000000 1000000 1000 1", size, " ")
  split("s ms us ns ps", unit, " ")
  least = most = -1
}

FNR == 1 { FS = what == "scenario" || what == "report" ? " " : ","; $0 = $0 }
FNR == 1 && FS == "," && what != "where" {
  split("", place)
  for (i = 1; i <= NF; i++) place[$i] = i
  next
}

what == "scenario" && $1 == "#" && $2 == "tick" && !tick {
  for (i = 1; i <= 5; i++) if (unit[i] == $4) tick = $3 * size[i]
  if (tick) told("tile", "network", "tick", time_of(1))
}
what == "scenario" && $1 == "link" {
  links++
  for (i = 3; i <= 4; i++) if (!($i in nodes)) {
    nodes[$i]
    count_nodes++
    told("drawing", $i, "node", $i)
  }
  told("link", $2, "link", $2)
  told("input-link", $2, "link", $2)
  told("link", $2, "ends", $3 " → " $4)
  bounds = times = ""
  for (i = 5; i <= NF; i++) {
    if ($i == "rate" || $i == "cap" || $i == "buffer") told("input-link", $2, $i, $(i + 1))
    if ($i == "prop") {
      propagation[$2] = $(i + 1)
      timed("input-link", $2, "propagation", $(i + 1))
    }
    if ($i == "levels") for (k = i + 1; k <= NF && $k ~ /^[0-9]/; k++) {
      bound[$2, k - i] = $k
      bounds = bounds (k > i + 1 ? " " : "") $k
      times = times (k > i + 1 ? " " : "") time_of($k)
    }
  }
  told("input-link", $2, "bounds", bounds)
  if (tick) told("input-link", $2, "bounds_time", times)
}
what == "scenario" && $1 == "caller" { group = $3 == "group" ? $4 : "" }
what == "scenario" && $1 == "open" {
  group_of[$2] = group
  told("input-request", $2, "request", $2)
  for (i = 3; i <= NF; i++) {
    if ($i == "contract") {
      timed("input-request", $2, "xmin", $(i + 1))
      timed("input-request", $2, "xave", $(i + 2))
      timed("input-request", $2, "interval", $(i + 3))
      told("input-request", $2, "smax", $(i + 4))
    }
    if ($i == "delay") timed("input-request", $2, "delay", $(i + 1))
    if ($i == "jitter") timed("input-request", $2, "jitter", $(i + 1))
    if ($i == "rate" && i > 6) timed("input-request", $2, "jitter", "")
  }
}

# delivered packets, by the report
what == "report" && $1 == "channel" && $7 > 0 { shortest[$2] = $9 }
what == "channels" && at("arrived") > 0 {
  has_packets = 1
  name = at("request")
  worst[name] = at("worst")
  told("packets-of", name, "request", name)
  told("packets-of", name, "arrived", at("arrived"))
  timed("packets-of", name, "least", shortest[name])
  timed("packets-of", name, "worst", at("worst"))
  timed("packets-of", name, "promised", at("promised"))
  timed("packets-of", name, "left", at("left"))
}
# the packets, in the order of channel, packet and hop: the delays, and how long the first of the longest was at each hop
what == "packets" && at("hop") == 1 { came = at("at"); split("", stay) }
what == "packets" {
  name = at("channel")
  stay[at("hop")] = at("departed") + propagation[at("link")] - at("at")
  if (at("hop") == hops[name]) {
    delay = at("departed") + propagation[at("link")] - came
    delays[name] = delays[name] " " delay
    if (!((name, 1) in at_hop) && delay == worst[name]) for (i in stay) at_hop[name, i] = stay[i]
  }
}
what == "where" && !again { hops[$1] = $2 }
what == "where" && again {
  name = $1
  id = name " " $2
  told("hop-of", id, "hop", $2)
  told("hop-of", id, "link", $3)
  timed("hop-of", id, "offers", $4)
  told("hop-of", id, "level", dash($5))
  timed("hop-of", id, "gets_bound", $8 == "" ? "" : bound[$3, $8])
  told("hop-of", id, "gets", dash($8))
  timed("hop-of", id, "propagation", $6)
  if (name in worst) timed("hop-of", id, "worst", at_hop[name, $2])
  route[name] = route[name] (name in route && route[name] != "" ? " → " : "") $3
  users[$3] = users[$3] (users[$3] == "" ? "" : ", ") name
  share = $3 " " group_of[name]
  users[share] = users[share] (users[share] == "" ? "" : ", ") name
}
what == "table" {
  name = at("request")
  accepted += at("verdict") == "accept"
  asked++
  told("request", name, "request", name)
  told("request", name, "verdict", at("verdict"))
  timed("request", name, "wanted", at("wanted"))
  timed("request", name, "promised", at("promised"))
  timed("request", name, "to_spare", at("to_spare"))
  if (has_packets) timed("request", name, "worst", worst[name])
  told("request", name, "tight", at("tight"))
  told("request", name, "route", route[name])
  if (at("why") ~ /^hop/) refuses[at("tight")]++
  if (at("verdict") == "deny") {
    why = at("why")
    gsub(/[a-z]+/, "", why)
    gsub(/ +/, " ", why)
    sub(/^ /, "", why)
    told("request", name, "why", why)
    if (at("least_delay") != "") told("request", name, "least_delay", at("least_delay"))
  }
  if (at("to_spare") != "" && (least < 0 || at("to_spare") + 0 < least)) {
    least = at("to_spare") + 0
    tightest = name
  }
}
what == "links" {
  kind = at("group") == "" ? "link" : "share-of"
  name = at("link") (at("group") == "" ? "" : " " at("group"))
  if (kind == "share-of") {
    told(kind, name, "group", at("group"))
    told(kind, name, "ends", "group")
  }
  told(kind, name, "work", at("work"))
  told(kind, name, "bounds", at("bounds"))
  if (at("room") != "") told(kind, name, "room", at("room"))
  told(kind, name, "long_run", at("long_run_percent") + 0 "%")
  told(kind, name, "buffer_free", at("buffer_free"))
  told(kind, name, "buffer", at("buffer"))
  told(kind, name, "accepted", at("accepted"))
  told(kind, name, "asked", at("asked"))
  full = fullest(at("work"), at("bounds"), at("room"))
  if (kind == "link" && name in refuses) word = "refuses"
  told(kind, name, "load", percent "% " word)
  told(kind, name, "requests", users[name])
  if (kind == "link") {
    told("drawing", name, "numbers", numbers)
    told("drawing", name, "label", percent "%" (word == "free" ? "" : " " word))
    if (full > most) {
      most = full
      fullest_link = name
      fullest_level = level
      fullest_percent = percent
    }
  }
}

END {
  told("tile", "requests", "accepted", accepted + 0)
  told("tile", "requests", "asked", asked + 0)
  told("tile", "network", "links", links)
  told("tile", "network", "nodes", count_nodes)
  told("tile", "fullest", "link", fullest_link)
  told("tile", "fullest", "percent", fullest_percent)
  told("tile", "fullest", "level", fullest_level)
  if (least >= 0) {
    told("tile", "tightest", "request", tightest)
    told("tile", "tightest", "to_spare", least)
  }
  for (name in delays) {
    n = split(delays[name], all, " ")
    split("", times_of)
    for (i = 1; i <= n; i++) times_of[all[i]]++
    for (delay in times_of) told("packets-of", name, "delay " delay, times_of[delay])
  }
}
