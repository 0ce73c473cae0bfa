#!/usr/bin/env bash
# release.sh [--no-licence] [OUT]: a release of the program that ./opprove build has proved and built: an archive, a Debian package and
# their checksums, in the folder OUT (out/release, if it isn't named). The checkout has to be clean, and the program that of
# its sources and of the kit. The same revision, program and system's tools give the same bytes.
# GATE_LOG may name the gate's log, whose last line is recorded, and MAINTAINER a name and address for the Debian package.
# A licence and authors are the owner's to say: without them there is a package for trial alone, by --no-licence.
# What is missing or wrong is told in one line on standard error, with status 1.
set -euo pipefail
export LC_ALL=C
umask 022
top=$(cd "$(dirname "${BASH_SOURCE[0]}")/.." && pwd)
built=$top/out
needed_tools=(git gcc python3 strip objdump dpkg dpkg-deb gzip tar sha256sum)

stop() {
  echo "release: $*" >&2
  exit 1
}

# ---- What a release stands on

look_at_version() {
  version=$(cat "$top/VERSION" 2>/dev/null) || stop "there is no file VERSION"
  [[ $version =~ ^(0|[1-9][0-9]*)(\.(0|[1-9][0-9]*))*$ ]] || stop "VERSION has to hold numbers with dots between them"
  [ "$(head -n 1 "$top/CHANGELOG.md" 2>/dev/null)" = "# $version" ] || stop "CHANGELOG.md has to begin with the version, '# $version'"
  grep -qsFx "version: \"$version\"" "$top/CITATION.cff" || stop "CITATION.cff has to have the line 'version: \"$version\"'"
  [ "$(cat "$top/python/src/opprove/VERSION" 2>/dev/null)" = "$version" ] ||
    stop "python/src/opprove/VERSION has to hold the version, '$version'"
}

# The checksum of all that the program is made of, as ./opprove keeps it.
sources() {
  cd "$top" && {
    cat crates.txt &&
      find crates -name out -prune -o -type f \( -name '*.rt' -o -name '*.antt' \) -print0 | sort -z | xargs -0 sha256sum
  } | sha256sum
}

look_at_program() {
  local kept
  { [ -x "$built/opprove" ] && [ -f "$built/opprove.sources" ]; } ||
    stop "the program isn't built; ./opprove build proves and builds it"
  mapfile -t kept <"$built/opprove.sources"
  kit=$(dirname "${kept[0]:-}") kit_name=${kept[1]:-} sources=${kept[2]:-}
  git -C "$top" rev-parse -q --verify HEAD >/dev/null || stop "this is no checkout of git"
  [ -z "$(git -C "$top" status --porcelain)" ] || stop "the checkout has changes"
  [ "$(sources)" = "$sources" ] || stop "the program is that of other sources; ./opprove build proves and builds it anew"
  [ "$(cat "$kit/KIT-ID" 2>/dev/null)" = "$kit_name" ] || stop "the kit that built the program isn't there: $kit_name"
  sources=${sources%% *}
}

# The licence, and who is named as authors.
look_at_owner() {
  local missing=()
  licences=()
  [ "$is_trial" ] ||
    mapfile -t licences < <(cd "$top" && find . -maxdepth 1 \( -name 'LICENSE*' -o -name 'COPYING*' \) -type f -printf '%P\n' | sort)
  authors=$(awk '/^[a-z]/ { is_list = /^authors:/ } is_list && /^ *- / { count++ } END { print count + 0 }' "$top/CITATION.cff")
  [ -z "$is_trial" ] || return 0
  ((${#licences[@]})) || missing+=("a licence (the file LICENSE)")
  ((authors)) || missing+=("the authors' names (in CITATION.cff)")
  ((${#missing[@]} == 0)) ||
    stop "missing, and the owner's to say: ${missing[0]}${missing[1]:+ and ${missing[1]}}; --no-licence makes a package for trial"
}

# ---- The files

# Links the static program, from the same object and archives as rt did. There is none where rt kept the program alone.
link_static() {
  [ -f "$built/opprove.o" ] || return 0
  gcc -static -o "$programs/opprove-static" "$built/opprove.o" "$kit/c/libos_c.a" "$kit/c/liblibc_c.a" -lpthread >"$room/said" 2>&1 ||
    stop "the static program can't be linked: $(head -n 1 "$room/said")"
}

# The libraries that the program is linked with, and the version of the C library's names.
look_at_needs() {
  local library
  needs=$(objdump -p "$built/opprove" | awk '$1 == "NEEDED" { print $2 }' | sort | tr '\n' ' ')
  for library in $needs; do
    case $library in
      libc.so.* | libm.so.* | libpthread.so.* | ld-linux*) ;;
      *) stop "the program needs more than the C library: $library" ;;
    esac
  done
  glibc=$(objdump -T "$built/opprove" | grep -o 'GLIBC_[0-9.]*' | sort -Vu | tail -n 1)
  glibc=${glibc#GLIBC_}
}

# Puts files of the revision into a folder.
put() {
  mkdir -p "$tree/$1"
  cp -r "${@:2}" "$tree/$1"
}

# Writes what a tool of the package prints to a file.
made() {
  mkdir -p "$(dirname "$tree/$1")"
  COLUMNS=80 SOURCE_DATE_EPOCH=$stamp python3 -IB python/src "${@:2}" >"$tree/$1" || stop "opprove ${*:2} fails"
}

fill() {
  local source=$room/source
  programs=$tree/lib/opprove
  mkdir -p "$source" "$tree/bin" "$programs" "$tree/share/opprove"
  git -C "$top" archive HEAD -- . ':!crates' ':!dev' | tar -xf - -C "$source"
  cd "$source"
  cp opprove "$tree/bin/opprove"
  cp "$built/opprove" "$programs/opprove"
  link_static
  strip "$programs"/*
  chmod 755 "$tree/bin/opprove" "$programs"/*
  cp -r python/src "$tree/share/opprove/python"
  made share/man/man1/opprove.1 manual
  gzip -9n "$tree/share/man/man1/opprove.1"
  made share/bash-completion/completions/opprove completions bash
  made share/zsh/site-functions/_opprove completions zsh
  made share/fish/vendor_completions.d/opprove.fish completions fish
  put share/vim/vimfiles editors/vim/ftdetect editors/vim/syntax
  put share/opprove/editors editors/textmate
  put share/doc/opprove README.md CHANGELOG.md CONTRIBUTING.md docs examples library ${licences[@]+"${licences[@]}"}
  ((authors == 0)) || put share/doc/opprove CITATION.cff
  put share/doc/opprove/python python/README.md
}

# The crates of the kit that the program is linked with: those that its crates name, and those that these use.
kit_crates() {
  local front="opprove" seen="" name names
  while [ "$front" ]; do
    name=${front%% *} front=${front#"$name"} front=${front# }
    case " $seen " in *" $name "*) continue ;; esac
    seen+=" $name"
    names=$(awk -v name="$name" -F: '{ split($1, words, " ") } words[1] == name { print $2 }' "$top/crates.txt")
    if [ ! -d "$top/crates/$name" ]; then
      echo "$name"
      names=$(awk '$1 == "dep" { printf "%s ", $2 }' "$kit/rlibs/$name.rlib/format")
    fi
    read -ra names <<<"$names"
    front+=${front:+${names[*]:+ }}${names[*]}
  done
}

# The licences of what is linked in, and which have no text.
third_party() {
  local to=$tree/share/doc/opprove/licences name file others=()
  mkdir -p "$to"
  while read -r name; do
    for file in "$kit/rattle/$name"/LICENSE*; do
      [ -f "$file" ] || { others+=("$name"); break; }
      mkdir -p "$to/$name" && cp "$file" "$to/$name"
    done
  done < <({ kit_crates && printf '%s\n' core std; } | sort -u)
  [ ! -f /usr/share/doc/libc6-dev/copyright ] || cp /usr/share/doc/libc6-dev/copyright "$to/glibc"
  {
    echo "The licences of what the programs are linked with: crates of $kit_name, and in opprove-static the C library (glibc)."
    ((${#others[@]} == 0)) || echo "The kit has no licence text for: ${others[*]}"
  } >"$to/README"
}

sum() { sha256sum "$1" | cut -d' ' -f1; }

# What was proved, and what was made of it. A line that names a file has its SHA-256 sum before that.
proved() {
  local name
  echo "version $version"
  echo "revision $revision"
  echo "kit $kit_name"
  echo "sources $sources"
  [ ! -f "$built/opprove.o" ] || echo "object $(sum "$built/opprove.o") out/opprove.o"
  echo "linked $(sum "$built/opprove") out/opprove by rt, dynamic"
  echo "packed $(sum "$programs/opprove") lib/opprove/opprove the same, stripped"
  if [ -f "$programs/opprove-static" ]; then
    echo "packed $(sum "$programs/opprove-static") lib/opprove/opprove-static from the same object by gcc -static, stripped"
  else
    echo "static none"
  fi
  echo "needs ${needs}with glibc $glibc or later, bash 5, and for the tools Python 3.8 or later"
  for name in ${licences[@]+"${licences[@]}"}; do echo "licence $(sum "$tree/share/doc/opprove/$name") share/doc/opprove/$name"; done
  ((${#licences[@]})) || echo "licence none"
  ((authors)) || echo "authors none"
  [ -z "$gate" ] || echo "gate $gate"
}

# ---- The release

# All files with the time of the last commit, and modes that depend on nothing else.
level() {
  chmod -R u=rwX,go=rX "$1"
  find "$1" -exec touch -hd "@$stamp" {} +
}

archive() {
  level "$tree"
  (cd "$room" && tar --format=gnu --sort=name --owner=0 --group=0 --numeric-owner --mtime="@$stamp" -cf - "$name") |
    gzip -9n >"$room/$name.tar.gz"
}

# What Debian's tools want to know of a package, beside the files of the archive.
about_package() {
  local deb=$1 doc=$1/usr/share/doc/opprove maintainer=${MAINTAINER:-nobody <nobody@invalid>}
  echo "The licence of opprove: ${licences[*]:-not said yet}. Those of what it is linked with: the folder licences beside this file." \
    >"$doc/copyright"
  {
    printf 'opprove (%s) unstable; urgency=medium\n\n  * Release %s; CHANGELOG.md says what it has.\n\n' "$version" "$version"
    printf ' -- %s  %s\n' "$maintainer" "$(date -Rud "@$stamp")"
  } | gzip -9n >"$doc/changelog.gz"
  cat >"$deb/DEBIAN/control" <<END_OF_CONTROL
Package: opprove
Version: $version
Architecture: $arch
${MAINTAINER:+Maintainer: $MAINTAINER
}Installed-Size: $(find "$deb/usr" -type f -printf '%s\n' | awk '{ size += int(($1 + 1023) / 1024) } END { print size }')
Depends: libc6 (>= $glibc), python3 (>= 3.8)
Section: math
Priority: optional
Description: proves identities of matrices and linear operators
 Decides statements about matrices and linear operators with different
 domains and codomains, with evidence that any program can check, and
 writes proofs as chains of equations, LaTeX, pictures and theorems for Coq.
END_OF_CONTROL
  cat >"$deb/DEBIAN/postinst" <<'END_OF_SCRIPT'
#!/bin/sh
set -e
if [ "$1" = configure ] && command -v py3compile >/dev/null; then
  py3compile -p opprove /usr/share/opprove/python
fi
END_OF_SCRIPT
  cat >"$deb/DEBIAN/prerm" <<'END_OF_SCRIPT'
#!/bin/sh
set -e
if command -v py3clean >/dev/null; then
  py3clean -p opprove
fi
END_OF_SCRIPT
  chmod 755 "$deb/DEBIAN/postinst" "$deb/DEBIAN/prerm"
}

debian() {
  local deb=$room/deb
  mkdir -p "$deb/DEBIAN" && cp -a "$tree" "$deb/usr"
  mv "$deb/usr/share/zsh/site-functions" "$deb/usr/share/zsh/vendor-completions"
  about_package "$deb"
  (cd "$deb" && find usr -type f -print0 | sort -z | xargs -0 md5sum >DEBIAN/md5sums)
  level "$deb"
  SOURCE_DATE_EPOCH=$stamp dpkg-deb --root-owner-group -Zxz --build "$deb" "$room/$package" >"$room/said" 2>&1 ||
    stop "dpkg-deb: $(head -n 1 "$room/said")"
}

main() {
  local tool out=$top/out/release
  is_trial="" gate=""
  if [ "${1:-}" = --no-licence ]; then is_trial=yes && shift; fi
  { (($# <= 1)) && [[ ${1:-} != -* ]]; } || stop "usage: release.sh [--no-licence] [OUT]"
  out=${1:-$out}
  for tool in "${needed_tools[@]}"; do command -v "$tool" >/dev/null || stop "$tool isn't installed"; done
  look_at_version
  look_at_program
  look_at_owner
  look_at_needs
  [ -z "${GATE_LOG:-}" ] || gate=$(tail -n 1 "$GATE_LOG" 2>/dev/null) || stop "the gate's log can't be read: $GATE_LOG"
  { mkdir -p "$out" && out=$(cd "$out" && pwd) && [ -w "$out" ]; } 2>/dev/null || stop "nothing can be written to $out"
  revision=$(git -C "$top" rev-parse HEAD) stamp=$(git -C "$top" log -1 --format=%ct) arch=$(dpkg --print-architecture)
  name=opprove-$version-linux-$arch package=opprove_${version}_$arch.deb
  room=$(mktemp -d)
  trap 'rm -rf "$room"' EXIT
  tree=$room/$name
  mkdir "$tree"
  fill
  third_party
  proved >"$tree/share/doc/opprove/PROVED"
  archive
  debian
  (cd "$room" && sha256sum "$name.tar.gz" "$package" >"opprove-$version.sha256")
  cp "$room/$name.tar.gz" "$room/$package" "$room/opprove-$version.sha256" "$out" || stop "nothing can be written to $out"
  cat "$tree/share/doc/opprove/PROVED"
}

main "$@"
