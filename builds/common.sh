# Which files the program is made of, and whether a build was made of them. For ./tenet, ./prove, ./check, .ci/run and builds/unproved: they
# set $root, the top of the repository, and $work, a folder of their own, and then source this.
#
# Beside a built program stands PROGRAM.files, which builds leave: the folders of the crates that it is made of, and a checksum of each file
# there, of crates.txt and HANDLES, and of the program.

# the crate of the program: tenet_app, or ask where whoever sources this has said so; where `rt` leaves it proved, and where one stands that wasn't
# proved: the gate clears the folders out/ of crates alone
app=${app:-tenet_app}
proved=$root/crates/$app/out/$app
unproved=$root/out/unproved/$app

# crates_below NAME: the crates that this one stands on, and last itself
crates_below() {
  awk -v top="$1" '
    { sub(/#.*/, "") }
    /:/ { split($0, side, ":"); split(side[1], head, " "); below[head[1]] = side[2] }
    function visit(name,   words, count, i) {
      if (name in seen || !(name in below)) return
      seen[name] = 1
      count = split(below[name], words, " ")
      for (i = 1; i <= count; i++) visit(words[i])
      print name
    }
    END { visit(top) }' "$root/crates.txt"
}

# parts_of KIND: the folders of a crate that matter to a build: of one without proofs its code alone
parts_of() {
  case $1 in
    proved) echo src specs proofs ;;
    unproved) echo src ;;
  esac
}

# folders_of KIND CRATE..: these folders of the crates, from the top of the repository, as far as there are any
folders_of() {
  parts=$(parts_of "$1")
  shift
  for crate; do
    for part in $parts; do [ ! -d "$root/crates/$crate/$part" ] || echo "crates/$crate/$part"; done
  done
}

# sums_of FOLDER..: the folders in a line, and a checksum of each file of code, of a specification or of a proof there, and of what says how crates
# stand on one another
sums_of() {
  echo "$*"
  (
    cd "$root" || exit
    find "$@" -type f \( -name '*.rt' -o -name '*.antt' \) -exec cksum {} + | LC_ALL=C sort -k 3
    cksum crates.txt HANDLES
  )
}

# sums_of_program KIND: the same of the crates that the program is made of
sums_of_program() {
  # names of crates have no spaces
  # shellcheck disable=SC2046
  sums_of $(folders_of "$1" $(crates_below "$app"))
}

# note_build PROGRAM KIND SUMS: notes that the program, which stands in its place, was made of the files whose sums are in the file SUMS. It fails
# where they have changed meanwhile. The note is as old as the look at them, so that what changes later is newer.
note_build() {
  : >"$work/looked"
  sums_of_program "$2" >"$work/sums"
  cmp -s "$work/sums" "$3" || return 1
  {
    cat "$work/sums"
    cksum <"$1"
  } >"$1.$$" && touch -r "$work/looked" "$1.$$" && mv -f "$1.$$" "$1.files"
}

# is_untouched PROGRAM: whether no file, folder or program is newer than the note, by when it was written or renamed. A file that is gone, or
# has come, makes its folder newer.
is_untouched() {
  read -r folders <"$1.files" || return 1
  # shellcheck disable=SC2086
  newer=$(cd "$root" && find $folders crates.txt HANDLES "$1" \( -newer "$1.files" -o -cnewer "$1.files" \) -print 2>&1) && [ -z "$newer" ]
}

# is_built PROGRAM KIND: whether the program is there, and made of the files as they stand. Checksums decide where the times don't, and the note
# is made as new as they are.
is_built() {
  [ -x "$1" ] && [ -s "$1.files" ] || return 1
  ! is_untouched "$1" || return 0
  : >"$work/looked"
  {
    sums_of_program "$2"
    cksum <"$1"
  } >"$work/sums"
  cmp -s "$work/sums" "$1.files" || return 1
  touch -r "$work/looked" "$1.files" 2>/dev/null
  return 0
}

# unproved_folder: the folder for a build without proofs: where it is kept, if that can be written
unproved_folder() {
  folder=${unproved%/*}
  if mkdir -p "$folder" 2>/dev/null && [ -w "$folder" ]; then echo "$folder"; else echo "$work"; fi
}

# make_kit FOLDER LEVEL: makes the folder a toolchain of links to the installed one. Only its compiler, its linker and its prover are scripts of
# builds/kit, by which `rt try` builds as far optimized as -O0 or -O1 says, without the sanitizer, keeps the built program in FOLDER/made, if that is
# there, and has no names checked by the prover. The scripts of `rt` are copied, since they look for the others beside themselves.
make_kit() {
  installed=$(rt doc) && installed=${installed%/*} || return
  [ -x "$installed/toolchain/bin/clang" ] && [ -x "$installed/toolchain/bin/ld.lld" ] || return
  mkdir -p "$1/bin" "$1/toolchain/bin" || return
  ln -s "$installed" "$1/installed" && echo "$2" >"$1/level" || return
  link_others "$installed" "$1" ' bin toolchain '
  link_others "$installed/toolchain" "$1/toolchain" ' bin '
  link_others "$installed/toolchain/bin" "$1/toolchain/bin" ' clang ld.lld '
  link_others "$installed/bin" "$1/bin" ' rt rtlib.py rattle '
  for script in rt rtlib.py; do [ ! -f "$installed/bin/$script" ] || cp "$installed/bin/$script" "$1/bin" || return; done
  cp "$root/builds/kit/rattle" "$1/bin" && cp "$root/builds/kit/clang" "$root/builds/kit/ld.lld" "$1/toolchain/bin"
}

# link_others FROM TO ' NAME.. ': links to all that stands in a folder, but for these names
link_others() {
  for file in "$1"/*; do
    case $3 in
      *" ${file##*/} "*) ;;
      *) ln -s "$file" "$2" ;;
    esac
  done
}

# end_all PROCESS: ends this process and all that it has begun
end_all() {
  # shellcheck disable=SC2046
  kill $(ps -A -o pid= -o ppid= | awk -v first="$1" '
    { above[$1] = $2 }
    END {
      ends[first] = 1
      do {
        found = 0
        for (one in above) if (!(one in ends) && above[one] in ends) ends[one] = found = 1
      } while (found)
      for (one in ends) print one
    }')
}

# minutes SECONDS: so many in minutes and seconds
minutes() {
  if [ "$1" -lt 60 ]; then echo "$1 s"; else echo "$(($1 / 60)) min $(($1 % 60)) s"; fi
}
