# A stand-in for the toolchain, and small clones that it builds, for .ci/tenet, .ci/prove and .ci/check. They source this with $work, a folder of
# their own, and $program, a built program. What the stand-in "builds" is that program. Each call of it is a line of $work/called: the crate
# where it was called, and its words. It goes by these variables:
#   RT_STATUS=N      it does nothing, and ends with this status
#   RT_SLEEPS=WORD   its command of this name sleeps for a minute, and writes its process to $work/asleep
#   RT_LIMIT=yes     its `try` stops at a limit; with the name of a test, that test does
#   RT_PLAIN=yes     its `try` links nothing that could be kept
#   RT_REFUSED=NAME  it refuses this crate, or fails this test; all_of_NAME: it doesn't build the tests of this crate
#   RT_CHANGES=FILE  it writes this file while it builds the program

# where the stand-in is, with a space in its name, and where its command is found
kit="$work/a kit"
tools=$work/tools

# make_stand_in: makes the stand-in, and from now on `rt` is its command
make_stand_in() {
  mkdir -p "$kit/bin" "$kit/toolchain/bin" "$tools"
  : >"$work/called"
  cat >"$kit/bin/rt" <<'END'
#!/bin/sh
kit=$(cd "$(dirname "$(readlink -f "$0")")/.." && pwd)
command=$1
name=$(basename "$PWD")
[ "$command" != doc ] || exec echo "$kit/START-HERE.md"
[ "$command" != version ] || exec echo "a stand-in"
echo "$name $*" >>"$STAND_IN/called"
[ -z "$RT_STATUS" ] || exit "$RT_STATUS"
[ "$RT_SLEEPS" != "$command" ] || { echo $$ >>"$STAND_IN/asleep"; sleep 61; }
[ "$command" != lib ] || [ "$RT_REFUSED" != "$name" ] || { echo "$name is refused"; exit 1; }

# builds the program as the file `program` of a new folder
build() {
  room=$(mktemp -d) || exit
  cd "$room" || exit
  [ -z "$RT_CHANGES" ] || echo changed >>"$RT_CHANGES"
  if [ "$RT_PLAIN" ]; then cp "$STAND_IN/built" program; else
    "$kit/toolchain/bin/clang" -c module -O0 -fsanitize=address
    "$kit/toolchain/bin/ld.lld" -o program a --whole-archive asan --no-whole-archive b
  fi
}

# the tests in the crate's code, each of which passes
test_crate() {
  tests=$(sed -n 's/^    fn \([a-z_0-9]*\)(.*/\1/p' src/*.rt)
  echo "tests: $(printf '%s\n' "$tests" | wc -l)"
  [ "$RT_REFUSED" != "all_of_$name" ] || { echo 'run=none proved=no' >&2; exit 1; }
  for test in $tests; do
    if [ "$RT_LIMIT" = "$test" ]; then printf 'test tests::%s ... FAILED\n    checked: no-answer: the program did not end within the time limit\n    run=no-answer\n' "$test"
    elif [ "$RT_REFUSED" = "$test" ]; then printf 'test tests::%s ... FAILED\n    assertion failed\n' "$test"
    else echo "test tests::$test ... ok"; fi
  done
  echo 'run=ended status=0 runners=1 proved=no' >&2
}

shift
case $command in
  ci) mkdir -p crates/tenet_app/out && cp "$STAND_IN/built" crates/tenet_app/out/tenet_app ;;
  run)
    while [ "$1" ] && [ "$1" != -- ]; do shift; done
    shift
    [ -z "$RT_CHANGES" ] || echo changed >>"$RT_CHANGES"
    mkdir -p out && cp "$STAND_IN/built" out/tenet_app
    exec out/tenet_app "$@"
    ;;
  try)
    [ "$1" != --test ] || { test_crate; exit; }
    shift
    if [ "$RT_LIMIT" = yes ]; then
      printf 'checked: no-answer: the program did not end within the time limit\nrun=no-answer proved=no\n' >&2
      exit 6
    fi
    build
    ./program "$@"
    status=$?
    rm -rf "$room"
    printf 'checked: ended status=%s\nraces: not looked for, since a kit has no ThreadSanitizer\nrun=ended status=%s runners=1 proved=no\n' "$status" "$status" >&2
    exit "$status"
    ;;
esac
END
  cat >"$kit/toolchain/bin/clang" <<'END'
#!/bin/sh
echo "clang $*" >>"$STAND_IN/called"
END
  cat >"$kit/toolchain/bin/ld.lld" <<'END'
#!/bin/sh
echo "ld.lld $*" >>"$STAND_IN/called"
exec cp "$STAND_IN/built" program
END
  printf '#!/bin/sh\n' >"$kit/bin/rattle"
  : >"$kit/START-HERE.md"
  chmod +x "$kit/bin/rt" "$kit/bin/rattle" "$kit/toolchain/bin/clang" "$kit/toolchain/bin/ld.lld"
  ln -s "$kit/bin/rt" "$tools/rt"
  cp "$program" "$work/built"
  STAND_IN=$work
  export STAND_IN
  PATH=$tools:$PATH
}

# make_clone FOLDER: a clone of two crates, the program and one below it, with the scripts
make_clone() {
  mkdir -p "$1"
  cp -R tenet prove check builds hints examples "$1"
  printf 'low:\ntenet_app: low\nhigh: tenet_app\n' >"$1/crates.txt"
  echo 'Handles allowed: none.' >"$1/HANDLES"
  for crate in low tenet_app high; do
    mkdir -p "$1/crates/$crate/src" "$1/crates/$crate/proofs"
    printf '#[cfg(test)]\nmod tests {\n    #[test]\n    fn of_%s(rt: HostRuntime) {}\n}\n' "$crate" >"$1/crates/$crate/src/lib.rt"
    echo proof >"$1/crates/$crate/proofs/Lib.antt"
  done
}

# the signals by which a terminal or a user stops a script: HUP, where it isn't ignored from the start, as it is under nohup, and TERM
signals=TERM
sh -c 'kill -s HUP $$' 2>/dev/null || signals='HUP TERM'

# stops SIGNAL COMMAND..: begins the command, whose stand-in sleeps, and stops it by this signal: it fails, what it has begun is gone, and so
# is each file that it has kept. (A shell that isn't interactive has INT ignored behind &.)
stops() {
  signal=$1
  shift
  : >"$work/asleep"
  mkdir -p "$work/kept"
  TMPDIR=$work/kept "$@" >"$work/out" 2>"$work/err" </dev/null &
  stopped=$!
  tries=0
  while [ ! -s "$work/asleep" ] && [ "$tries" -lt 60 ]; do
    sleep 1
    tries=$((tries + 1))
  done
  kill -s "$signal" "$stopped"
  ! wait "$stopped" || return
  [ -s "$work/asleep" ] || return
  tries=0
  until is_gone; do
    [ "$tries" -lt 20 ] || return
    sleep 1
    tries=$((tries + 1))
  done
}

# is_gone: whether no process that slept is left, nor a file that was kept
is_gone() {
  while read -r asleep; do
    ! kill -0 "$asleep" 2>/dev/null || return
  done <"$work/asleep"
  [ -z "$(ls "$work/kept")" ]
}
