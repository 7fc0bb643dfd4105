# What tools/ride, tools/archive and the gate share. It is sourced at the top of the repository.
# A fault is one line that says what is missing and what brings it.

oldest=87                # bench/ is built by Rust 1.87 and newer
every=${SAY_EVERY:-30}   # seconds without news after which the time so far is told

say() { echo "${0##*/}: $*" >&2; }

tell() { say "$(printf '[%d:%02d]' $((SECONDS / 60)) $((SECONDS % 60))) $*"; }

rt_fault() {
  command -v rt >/dev/null || echo "rt is missing; the kit that README.md names brings it"
}

# Both are asked: cargo has rustc compile, and the two may be of different ages.
cargo_fault() {
  local tool bring="Rust 1.$oldest or newer, from rustup or a current distribution,"
  for tool in cargo "${RUSTC:-rustc}"; do
    if ! [[ $("$tool" --version 2>/dev/null) =~ \ ([0-9]+)\.([0-9]+)\. ]]; then
      echo "$tool is missing or does not run; $bring brings it"
      return
    elif [ "${BASH_REMATCH[1]}" -eq 1 ] && [ "${BASH_REMATCH[2]}" -lt "$oldest" ]; then
      echo "$tool ${BASH_REMATCH[1]}.${BASH_REMATCH[2]} is too old; $bring is wanted"
      return
    fi
  done
}

# need CHECK..: says every fault that the checks find, and ends if there is one.
need() {
  local check fault found=
  for check in "$@"; do
    fault=$("$check")
    if [ -n "$fault" ]; then say "$fault"; found=yes; fi
  done
  [ -z "$found" ] || exit 1
}

# changed_since FILE: a source newer than FILE, or nothing. A folder counts: a file that was taken
# away leaves no other trace. But crates/NAME itself does not, since rt makes out/ there, which is no
# source; and the must-fail edits are no part of what is made.
changed_since() {
  find crates crates.txt \( -name must-fail -o -name out \) -prune -o -newer "$1" \
    \( -type d -path 'crates/*/*' -o -name '*.rt' -o -name '*.antt' -o -name crates.txt \) -print -quit
}

# stale MADE: why MADE has to be made, or nothing.
stale() {
  local changed
  if [ ! -f "$1" ]; then echo "$1 is not there"; return; fi
  changed=$(changed_since "$1")
  [ -z "$changed" ] || echo "$changed is newer than $1"
}

# plan CRATE: the crates that it stands on, then itself, in the order in which rt proves them.
plan() {
  awk -F: -v goal="$1" '
    function visit(name,   on, n, i) {
      if (!(name in deps) || (name in seen)) return
      seen[name]
      n = split(deps[name], on, " ")
      for (i = 1; i <= n; i++) visit(on[i])
      print name
    }
    { sub(/#.*/, "") }
    NF > 1 { split($1, word, " "); deps[word[1]] = $2 }
    END { visit(goal) }' crates.txt
}

# reached CRATE: rt begins with a crate; those before it are done, also where rt had no need to say so.
reached() {
  now=$1 since=$SECONDS
  case $left in *" $1 "*) left=" $1 ${left#*" $1 "}" ;; esac
}

# heard LINE: tells what became of a crate, and passes a line of rt's own on, with the crates that are
# left. rt says nothing of the whole while it proves a crate; then the time so far is told. The
# variables are those of follow.
heard() {
  local said=
  case $1 in
  "rt: chose --jobs "*" for "*) reached "${1##* for }" ;;
  "logic=proved "*) said="$now proved ($((SECONDS - since)) s)" left=${left/" $now "/ } ;;
  logic=not-proved*) said="$now NOT PROVED ($((SECONDS - since)) s)" ;;
  "rt: running "*) ;; # the program is run on nothing, since rt makes it only so
  "rt: "*) tell "${1#rt: }"; told=$SECONDS; return ;;
  esac
  [ -n "$said" ] || [ $((SECONDS - told)) -ge "$every" ] || return 0
  # shellcheck disable=SC2086 # names of crates have no spaces
  set -- $left
  tell "${said:-waiting for ${1:-the end}}; $((all - $#)) of $all crates done${1:+, left: $*}"
  told=$SECONDS
}

# follow CRATE..: reads what rt says until the next news is due; that may be amid a line.
follow() {
  local line part='' due all=$# left=" $* " now="the crate" since=$SECONDS told=$((SECONDS - every + 1))
  while true; do
    due=$((told + every - SECONDS))
    if IFS= read -r -t $((due > 0 ? due : 1)) line; then
      heard "$part$line"
      part=''
    elif [ $? -gt 128 ]; then
      part+=$line
      heard ''
    else
      break
    fi
  done
}

# prove CRATE BUILT MADE COMMAND..: has rt prove CRATE, in the crate's folder, and write BUILT, which
# is copied to MADE where that is another file; and tells how far it is.
prove() {
  local crate=$1 crates built=$2 made=$3 log=target/${0##*/}.log begun=target/${0##*/}.begun status changed
  crates=$(plan "$1")
  shift 3
  say "'$*' in crates/$crate may take minutes; all that it says goes to $log"
  mkdir -p target
  touch "$begun"
  # shellcheck disable=SC2086
  (cd "crates/$crate" && exec "$@") </dev/null 2>&1 | tee "$log" | follow $crates
  status=${PIPESTATUS[0]}
  if [ "$status" -ne 0 ] || [ ! -f "$built" ]; then
    # but for its lines that only count what it read
    grep -vE '^(statements|library|axioms) |^logic /|^only=' "$log" | tail -n 20 >&2
    say "'$*' made no $built (exit status $status); $log has all that it said"
    exit 1
  fi
  # rt does not write a program again that it finds unchanged. What was saved since it began, it may
  # not have read.
  touch "$built"
  changed=$(changed_since "$begun")
  [ -z "$changed" ] || touch -r "$begun" "$built"
  if [ "$made" != "$built" ]; then
    mkdir -p "${made%/*}"
    cp -p "$built" "$made.new"
    mv "$made.new" "$made"
  fi
  tell "$made is made${changed:+, but $changed has changed meanwhile: call ${0##*/} again}"
}
