# How ./opprove builds the program without proofs, once for the present sources and kit, for which it reads this file: by `rt try`, from
# a folder that stands for the kit. It is kept in out/unproved, with the three lines that ./opprove compares.
# shellcheck shell=bash disable=SC2154,SC2034
. "$top/dev/building.sh"
kept=$out/unproved

# Makes a folder that stands for the kit: links, but for copies of rt and rtlib.py, which find their kit by where they lie, and for a
# clang. Where rt try has it compile the program with address checks and -O0, it compiles and links the program without them and by
# -O2, and ends the try. Where that fails it does as it was called, and take_checked takes what comes of it, some 300 times slower.
make_kit() {
  local it kit name
  kit=$(kit_file) && kit=${kit%/*} && mkdir -p "$1/bin" "$1/toolchain/bin" || return
  for it in "$kit"/* "$kit"/toolchain/* "$kit"/bin/* "$kit"/toolchain/bin/*; do
    name=${it#"$kit"/}
    case $name in
      bin | toolchain | toolchain/bin | toolchain/bin/clang) ;;
      bin/rt | bin/rtlib.py) cp "$it" "$1/$name" || return ;;
      *) [ ! -e "$it" ] || ln -s "$it" "$1/$name" || return ;;
    esac
  done
  {
    printf '#!/usr/bin/env bash\nkit=%q room=%q\n' "$kit" "$room"
    cat <<'END'
# A small module before it tries whether address checks run here.
if [ -f module.bc ] && [ "$(wc -c <module.bc)" -gt 1000000 ]; then
  words=()
  for it in "$@"; do case $it in -fsanitize=*) ;; -O0) words+=(-O2) ;; *) words+=("$it") ;; esac; done
  "$kit/toolchain/bin/clang" "${words[@]}" &&
    "$kit/bin/rattle-link" --target x86_64-unknown-linux-gnu --toolchain "$kit/toolchain" -o linked module.o \
      "$kit/c/libos_c.a" "$kit/c/liblibc_c.a" >/dev/null &&
    [[ $(./linked) == "# usage: "* ]] && mv linked "$room/program" && exit 1
fi
exec "$kit/toolchain/bin/clang" "$@"
END
  } >"$1/toolchain/bin/clang" && chmod +x "$1/toolchain/bin/clang"
}

# Links or copies the program with address checks out of the folder of rt while it waits for its statement: opening the FIFO ends where
# the program has opened it. A reader that is no program, as an interpreter, reads an empty statement, and the next is waited for.
take_checked() {
  local it
  while :; do
    exec 3>"$room/statement" || return
    while read -r -d '' it; do
      if ln "$it" "$room/checked" || cp "$it" "$room/checked"; then return 0; else return 1; fi
    done < <(find "$room/tmp" -type f -name program -perm -u+x -print0)
    exec 3>&-
    sleep 0.2
  done
}

# How far it is, on a terminal: a bar over the seconds that are expected here, by what else runs.
show_try() {
  local share
  [ -t 2 ] || return 0
  share=$((20 * (SECONDS - began) / expected))
  bar=$(printf '%*s' $((share < 19 ? share : 19)) '' | tr ' ' '#')
  printf '\r[%-20s] %d of about %d seconds\033[K' "$bar" $((SECONDS - began)) "$expected" >&2
  bar=shown
}

# Ends a build: says why, takes away what it made, and ends the call.
give_up() {
  local why=$1
  if ! has_room "$kept" || grep -qs 'No space left' "$room/log"; then
    why="the disk of $kept is full, or may not be written: make room and call again"
  elif [ -s "$room/log" ]; then
    [ -z "$bar" ] || printf '\r\033[K' >&2
    bar=""
    grep -v '^run=none' "$room/log" | tail -n 20 >&2
  fi
  say "$why"
  clear_away
  exit 1
}

# Runs rt try in a folder of its own, and leaves the program in $room/program.
try_once() {
  local taker status began=$SECONDS
  rm -rf "$kept/opprove" "$kept/opprove.sources"
  # Not in the checkout, where a gate would meet the links.
  { room=$(mktemp -d) && mkdir "$room/tmp" && mkfifo "$room/statement"; } 2>/dev/null ||
    give_up "no folder could be made in ${TMPDIR:-/tmp}"
  make_kit "$room/kit" 2>"$room/log" || give_up "no folder could be made that stands for the kit"
  { trap - INT QUIT TERM HUP PIPE && take_checked; } 9>&- 2>/dev/null </dev/null >/dev/null &
  taker=$!
  rm -f "$kept/slow"
  in_group "$room/log" "$top/crates/opprove" env TMPDIR="$room/tmp" "$room/kit/bin/rt" try -- prove "$room/statement"
  while kill -0 "$group" 2>/dev/null; do show_try; sleep 0.5; done
  wait "$group"
  status=$? group=""
  # rt has ended, so a taker that still waits for a reader waits in vain.
  kill -0 "$taker" 2>/dev/null && { sleep 0.5; kill "$taker" 2>/dev/null; }
  if wait "$taker" 2>/dev/null && [ ! -x "$room/program" ]; then
    mv "$room/checked" "$room/program" && : >"$kept/slow"
  fi
  is_whole "$room/program" || give_up "the program could not be built without proofs: rt try ended with status $status"
}

# Builds the program for the present sources, and keeps it. A second round looks whether a source was changed meanwhile.
build_unproved() {
  local stamp expected round room=""
  lock "$kept" "builds the program"
  expected=$(awk -v processors="$(nproc)" '{ share = ($1 + 1) / processors; print int(110 * (share > 1 ? share : 1)) }' /proc/loadavg)
  on_signals 'nothing is kept of it'
  for round in 1 2 3; do
    ! is_current "$kept/opprove" || break
    need_kit || exit 1
    ((round > 1)) || say "building the program without proofs, once for these sources: about $(minutes "$expected")"
    { : >"$kept/started"; } 2>/dev/null || give_up ""
    stamp=$(stamp_now) || give_up "the sources or the kit's KIT-ID could not be read"
    if [ -x "$kept/opprove" ] && [ "$(cat "$kept/opprove.sources" 2>/dev/null)" = "$stamp" ]; then
      touch -r "$kept/started" "$kept/opprove.sources" 2>/dev/null || give_up ""
      continue
    fi
    try_once
    keep_built "$room/program" "$kept/opprove" "$stamp" "$kept/started" || give_up ""
    rm -rf "$room"
    room=""
  done
  is_current "$kept/opprove" || give_up "the sources change while the program is built; call again when they don't"
  exec 9>&-
  trap - INT QUIT TERM HUP PIPE
}
