# How `./opprove build` proves and builds the program, for which ./opprove reads this file: by the gate's own command, `rt ci`, on a copy of
# the crates that the program stands on, without the edits that must be refused. What passes is kept where the gate looks for it, so
# each crate is proved once between the two. The program lies in out/, since a gate empties crates/*/out. Here is also what
# dev/unproved.sh shares with it.
# shellcheck shell=bash disable=SC2154,SC2034
group="" copy=""

# The minutes of so many seconds, in words.
minutes() { if (($1 < 90)); then echo "a minute"; else echo "$((($1 + 30) / 60)) minutes"; fi; }

# ---- Sources and the kit

# The version file of the kit whose rt is called.
kit_file() {
  local rt
  rt=$(readlink -f "$(command -v rt)") && echo "${rt%/*/*}/KIT-ID"
}

need_kit() {
  { [ -f "$(kit_file)" ] && command -v flock >/dev/null; } 2>/dev/null && return
  say "rt isn't found, which proves and builds the program (or flock): put the bin folder of a Rattle kit in PATH, and call again"
  return 1
}

# The checksum of all that the program is made of.
sources() (
  cd "$top" && {
    cat crates.txt &&
      find crates -name out -prune -o -type f \( -name '*.rt' -o -name '*.antt' \) -print0 | LC_ALL=C sort -z | xargs -0 sha256sum
  } | sha256sum
)

# The three lines that stand beside a program: the kit's version file, what it says, and the checksum of the sources.
stamp_now() { { version=$(kit_file) && [ -f "$version" ] && echo "$version" && cat "$version" && sources; } 2>/dev/null; }

# Whether a program is that of the present sources, some of which were touched since.
is_same() {
  local now=$1.now
  { : >"$now" && [ "$({ sed -n 1p "$1.sources" && cat "$(sed -n 1p "$1.sources")" && sources; } 2>/dev/null)" = "$(<"$1.sources")" ] &&
    touch -r "$now" "$1.sources" && rm -f "$now"; } 2>/dev/null || { rm -f "$now" && false; }
}

# Puts a program in its place with its three lines, which have the time at which it was begun.
keep_built() {
  { mv -f "$1" "$2" && echo "$3" >"$2.sources.new" && touch -r "$4" "$2.sources.new" && mv -f "$2.sources.new" "$2.sources"; } 2>/dev/null
}

# Whether a program is there and whole: with no words it answers by its line of usage.
is_whole() { [ -x "$1" ] && [[ $("$1" 2>/dev/null 9>&-) == "# usage: "* ]]; }

# Whether the disk of a folder takes some more.
has_room() { { printf '%65536s' '' >"$1/room" && rm -f "$1/room"; } 2>/dev/null || { rm -f "$1/room" 2>/dev/null && false; }; }

# ---- One at a time, and ends

# Waits for another call that does the same in this folder, by its lock.
lock() {
  { mkdir -p "$1" && exec 9>"$1/lock"; } 2>/dev/null ||
    { say "the disk of $1 is full, or may not be written: make room and call again" && exit 1; }
  flock -n 9 || { say "waiting for another call that $2" && flock 9; }
}

# Starts a command in a folder, its output in a log: a process group of its own, which is ended as one, and which an interrupt of the
# terminal doesn't reach.
in_group() {
  local log=$1 folder=$2
  shift 2
  set -m
  (trap - INT QUIT TERM HUP PIPE && cd "$folder" && exec "$@") </dev/null >"$log" 2>&1 9>&- &
  group=$!
  set +m
}

# Takes away all that is under way. rt, asked to stop, ends what it started and removes its folders.
clear_away() {
  local it
  if [ -n "$group" ]; then
    kill -s TERM -- "-$group" 2>/dev/null
    for ((it = 0; it < 50; it++)); do kill -0 "$group" 2>/dev/null || break; sleep 0.1; done
    kill -s KILL -- "-$group" 2>/dev/null
    wait "$group" 2>/dev/null
  fi
  # shellcheck disable=SC2046
  kill $(jobs -p) 2>/dev/null
  rm -rf ${room:+"$room"} ${copy:+"$copy"}
  group=""
}

# Ends the call by the signal that came.
interrupted() {
  [ "$BASHPID" = "$$" ] || exit 1
  trap '' INT QUIT TERM HUP PIPE
  say "stopped: $2"
  clear_away
  trap - "$1"
  kill -s "$1" "$$"
  exit 1
}

on_signals() {
  local it
  # shellcheck disable=SC2064
  for it in INT QUIT TERM HUP PIPE; do trap "interrupted $it '$1'" "$it"; done
}

# ---- The crates, and how long they take

# The crates that the program stands on and the program, with the seconds that each takes by itself, and behind them the crates that it
# stands on: those with the longest chain above them first. The seconds were fitted to the tables of docs/MEASUREMENTS.md by lines
# of code and by how many crates there are below; the program's go into compiling and linking.
closure() {
  (cd "$top" && find crates/*/src -name '*.rt' -exec awk '
    FNR == 1 { split(FILENAME, parts, "/") }
    { lines[parts[2]]++ }
    END { for (crate in lines) print crate, lines[crate] }' {} +) | awk '
    NR == FNR { lines[$1] += $2; next }
    /^[a-z]/ { split($0, halves, ":"); split(halves[1], front, " "); below[front[1]] = halves[2]; known[front[1]] = 1 }
    function visit(crate,  names, count, i, line) {
      if (seen[crate]++) return
      count = split(below[crate], names, " "); line = crate
      for (i = 1; i <= count; i++) if (names[i] in known) { visit(names[i]); line = line " " names[i] }
      printed[++last] = line
    }
    END {
      visit("opprove")
      for (; last; last--) {
        count = split(printed[last], names, " "); crate = names[1]
        sub(/^[^ ]+/, crate " " (crate == "opprove" ? 120 : int(10 + 0.18 * lines[crate] + 0.7 * (count - 1))), printed[last])
        print printed[last]
      }
    }' - "$top/crates.txt"
}

# How many crates are proved side by side, as rt does it: a processor each, and 3 GB of memory.
slots() {
  local free
  free=$(awk '/^MemAvailable/ { print int($2 / 1000000) }' /proc/meminfo 2>/dev/null)
  printf '%s\n' "${OPPROVE_JOBS:-$(nproc)}" $((${free:-3} / 3)) | sort -n | awk 'NR == 1 { print $1 < 1 ? 1 : $1 }'
}

# The seconds that the crates take that aren't proved, which `done` names: their work side by side, and at least the longest chain of
# them, by what else runs here.
seconds_left() {
  local load
  read -r load _ </proc/loadavg || load=0
  closure | awk -v proved=" $* " -v slots="$(slots)" -v load="$load" -v processors="$(nproc)" '
    { names[NR] = $1; left[$1] = index(proved, " " $1 " ") ? 0 : $2; for (i = 3; i <= NF; i++) below[$1] = below[$1] " " $i }
    END {
      for (i = NR; i; i--) {
        crate = names[i]; work += left[crate]; count = split(below[crate], under, " ")
        for (j = 1; j <= count; j++) if (chain[under[j]] > chain[crate]) chain[crate] = chain[under[j]]
        chain[crate] += left[crate]; if (chain[crate] > longest) longest = chain[crate]
      }
      share = load / processors; if (share < 1) share = 1
      print int(share * (work / slots > longest ? work / slots : longest))
    }'
}

build_time() { echo "about $(minutes "$(seconds_left)")"; }

# ---- Proofs

# Copies what rt ci reads of these crates to a folder that is the top of a repository, but for the edits that must be refused.
copy_crates() {
  local name part
  mkdir -p "$copy/.git" "$copy/crates" && cp "$top/HANDLES" "$copy" || return
  for name in "$@"; do
    mkdir "$copy/crates/$name" && grep -E "^${name}[ :]" "$top/crates.txt" >>"$copy/crates.txt" || return
    for part in "$top/crates/$name"/*; do
      case $part in */out | */must-fail) ;; *) cp -r "$part" "$copy/crates/$name" || return ;; esac
    done
  done
} 2>/dev/null

# The crates that rt has said are proved, or kept from before.
proved_now() { sed -nE 's/^rt: ([a-z_0-9]+) (proved|is kept: .*)$/\1/p' "$log"; }

# How far it is: on a terminal a line that is rewritten, with a bar; else a line for each crate that is proved.
show_build() {
  local names width text
  mapfile -t names < <(proved_now)
  ((${#names[@]} > shown || SECONDS >= shown_at + 5)) || return 0
  ((left = $(seconds_left "${names[@]}"), shown_at = SECONDS))
  if [ -t 2 ]; then
    bar=$(printf '%*s' $((20 * ${#names[@]} / ${#crates[@]})) '' | tr ' ' '#')
    width=$(tput cols 2>/dev/null || echo 80)
    text=$(printf '[%-20s] %d of %d crates, about %s left' "$bar" ${#names[@]} ${#crates[@]} "$(minutes "$left")")
    printf '\r%.*s\033[K' "$((width - 1))" "$text" >&2
    bar=shown
  elif ((${#names[@]} > shown)); then
    say "${#names[@]} of ${#crates[@]} crates are proved, about $(minutes "$left") left"
  fi
  shown=${#names[@]}
}

# Says in one line why something could not be written or proved, and what to do.
fail() {
  if ! has_room "$out" || grep -qs 'No space left on device\|the disk is full' "$log"; then
    say "the disk of $out is full, or may not be written: make room and call again, which goes on with what is proved"
  else
    [ -z "$bar" ] || echo >&2
    bar=""
    [ ! -s "$log" ] || grep -v '^rt: .* \(proved\|is kept: .*\)$' "$log" | tail -n 20 >&2
    say "$1; the whole log is $log"
  fi
  clear_away
  exit 1
}

# Has rt ci prove the crates in a copy, and takes the program from there, with its object where it was compiled just now.
prove() {
  local shown=0 shown_at=$SECONDS left
  { copy=$(mktemp -d) && copy_crates "${crates[@]}"; } || fail "the crates could not be copied"
  in_group "$log" "$copy" env -u CI ${OPPROVE_JOBS:+RT_JOBS="$OPPROVE_JOBS"} rt ci
  while kill -0 "$group" 2>/dev/null; do show_build; sleep 0.5; done
  wait "$group" || fail "the program could not be proved"
  group=""
  is_whole "$copy/crates/opprove/out/opprove" || fail "rt ci left no program"
}

# Keeps the object of the program too, for a release: where it was compiled just now, or by a gate here, or is there from before, and gives
# the same program.
keep_object() {
  local kit object
  kit=$(kit_file) && kit=${kit%/*}
  for object in "$copy/crates/opprove/out/opprove.o" "$top/crates/opprove/out/opprove.o" "$out/opprove.o"; do
    "$kit/bin/rattle-link" --target x86_64-unknown-linux-gnu --toolchain "$kit/toolchain" -o "$copy/linked" "$object" \
      "$kit/c/libos_c.a" "$kit/c/liblibc_c.a" || continue
    cmp -s "$copy/linked" "$out/opprove" || continue
    [ "$object" = "$out/opprove.o" ] || cp "$object" "$out"
    return
  done
  rm -f "$out/opprove.o"
} >/dev/null 2>&1

say_proved() { say "proved and built: ${#crates[@]} crates, by $(sed -n 2p "$out/opprove.sources"); ./opprove answers by this program"; }

# Proves and builds the program for the present sources. A second round looks whether a source was changed meanwhile.
build() {
  local crates log=$out/opprove.log stamp round began=$SECONDS
  need_kit || exit 1
  lock "$out" "proves the program"
  mapfile -t crates < <(closure | cut -d' ' -f1)
  for round in 1 2 3; do
    if is_built "$out/opprove"; then say_proved; exit 0; fi
    say "${#crates[@]} crates are proved and the program is built, once for these sources: $(build_time) here where none is proved yet"
    say "Ctrl-C loses no crate that is proved, and ./opprove WORDS answers meanwhile without proofs"
    on_signals 'the next ./opprove build goes on with what is proved'
    { : >"$out/opprove.started" && : >"$log"; } 2>/dev/null || fail "nothing could be written"
    stamp=$(stamp_now) || fail "the sources or the kit's KIT-ID could not be read"
    prove
    keep_built "$copy/crates/opprove/out/opprove" "$out/opprove" "$stamp" "$out/opprove.started" || fail "nothing could be written"
    keep_object
    clear_away
    copy=""
    say "built in $(minutes $((SECONDS - began)))"
  done
  fail "the sources change while they are proved; call again when they don't"
}
