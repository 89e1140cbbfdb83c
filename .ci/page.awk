# page.awk: the numbers of a page that `ask page` writes: a line KIND NAME COLUMN VALUE for each cell, with tabs between, and one with COLUMN_time where a time stands
# below it; and for each link of the drawing. KIND and NAME are the row's, with the number of a hop and the name of a group behind it. Cells of one column in a row stand in one line. A row begins a line.
function value_in(tag, name,   text) {
  text = tag
  if (!match(text, name "=\"[^\"]*\"")) return ""
  return substr(text, RSTART + length(name) + 2, RLENGTH - length(name) - 3)
}

function keep(column, value) {
  if (column in cells) cells[column] = cells[column] " " value
  else {
    cells[column] = value
    order[++count] = column
  }
}

/^<(tr|div) [^>]*data-/ {
  head = line = $0
  sub(/>.*/, "", head)
  split("", cells)
  count = 0
  while (match(line, /data-column="[a-z_]*"[^>]*>/)) {
    tag = substr(line, RSTART, RLENGTH)
    line = substr(line, RSTART + RLENGTH)
    value = line
    sub(/<.*/, "", value)
    rest = substr(line, length(value) + 1)
    sub(/ $/, "", value)
    column = value_in(tag, "data-column")
    if (tag ~ /data-value=/) value = value_in(tag, "data-value")
    keep(column, value)
    if (rest ~ /^<small>/) {
      sub(/^<small>/, "", rest)
      sub(/<.*/, "", rest)
      keep(column "_time", rest)
    }
  }
  for (kind in kinds) if (head ~ "data-" kind "=") {
    name = value_in(head, "data-" kind)
    if (head ~ /data-group=/) name = name " " value_in(head, "data-group")
    if ("hop" in cells) name = name " " cells["hop"]
    for (i = 1; i <= count; i++) print kind, name, order[i], cells[order[i]]
  }
}

# The drawing of a network: the numbers of each link, and its label; the nodes.
/<title>[^<]*: [^<]*</ && /class="net"/ {
  line = $0
  linkname = ""
  while (match(line, /<title>[^<]*<|<text class="linkname"[^>]*>[^<]*<|<text class="(load|name)"[^>]*>[^<]*</)) {
    part = text = substr(line, RSTART, RLENGTH - 1)
    line = substr(line, RSTART + RLENGTH)
    sub(/.*>/, "", text)
    if (part ~ /^<title/) {
      linkname = text
      sub(/:.*/, "", linkname)
      print "drawing", linkname, "numbers", substr(text, length(linkname) + 3)
      linkname = ""
    } else if (part ~ /class="name"/) {
      print "drawing", text, "node", text
    } else if (part ~ /linkname/) {
      linkname = text
    } else {
      if (linkname == "") {
        linkname = text
        sub(/ .*/, "", linkname)
        text = substr(text, length(linkname) + 2)
      }
      print "drawing", linkname, "label", text
      linkname = ""
    }
  }
}

BEGIN {
  OFS = "\t"
  split("tile request hop-of packets-of link share-of input-link input-request", list, " ")
  for (i in list) kinds[list[i]]
}
