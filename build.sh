#!/bin/sh
# Proves the crates and builds the program, and says on standard error how far it is. All that rt prints goes to files.
set -u
cd "$(dirname -- "$0")" || exit 1
program=crates/am_cli/out/am_cli
out=$(pwd)/crates/am_cli/out
log=$out/build.log
work=$out/build
say() { printf 'amstore: %s\n' "$*" >&2; }

if ! command -v rt >/dev/null; then
  say "the program isn't built, and rt isn't on the path (it is the command of the Rattle toolchain)"
  exit 1
fi

# A check of a crate takes up to about 5 GB, so memory may allow fewer side by side than there are processors.
processors=$(nproc 2>/dev/null || echo 1)
room=$(awk '/^MemAvailable/ { print int($2 / 5000000) }' /proc/meminfo 2>/dev/null)
at_once=$processors
[ "${room:-$at_once}" -ge "$at_once" ] || at_once=$room
[ "$at_once" -ge 1 ] || at_once=1

# While rt works on a crate, no other rt may work on one that it stands on. So each crate is proved in a copy of the
# sources, over the libraries that were built in other copies. What rt keeps of a crate goes to the clone's own folder,
# also of one that was cut off, so that it is proved once, and after a pull only what changed.
keep_work() {
  for part in rlib incremental; do
    kept=$work/copies/$1/crates/$1/out/$part
    [ ! -d "$kept" ] || { rm -rf "crates/$1/out/$part" && mv "$kept" "crates/$1/out/"; }
  done
  rm -rf "$work/copies/$1"
}
keep_all() {
  for name in $(ls "$work/copies" 2>/dev/null); do
    keep_work "$name"
  done
  rm -rf "$work"
}
rm -rf "$work"
mkdir -p "$work/copies" "$work/at-work" "$work/done" "$work/failed" || exit 1
: >"$log"
trap keep_all EXIT
# (a shell's jobs don't see an interrupt)
trap 'trap "" TERM; kill 0; wait; exit 1' INT HUP TERM

# Of each crate a line: how nice it is to others, its name, and those that it stands on; first those with the longest
# chains of others above them, which are the least nice.
awk -F: '
  /^[a-z]/ { below[$1] = $2 }
  END {
    do {
      more = 0
      for (name in below) {
        of = split(below[name], needs, " ")
        for (i = 1; i <= of; i++)
          if (needs[i] in below && above[needs[i]] < above[name] + 1) { above[needs[i]] = above[name] + 1; more = 1 }
      }
    } while (more)
    for (name in above) if (above[name] > most) most = above[name]
    for (long = most; long >= 0; long--) for (name in below) if (above[name] + 0 == long) {
      line = (most - long) " " name
      of = split(below[name], needs, " ")
      for (i = 1; i <= of; i++) if (needs[i] in below) line = line " " needs[i]
      print line
    }
  }' crates.txt >"$work/plan"

count() { ls "$work/$1" | wc -l; }

# A copy of the sources for the proof of a crate, with the libraries that are built, and what was kept of this crate.
copy_for() {
  # (.git marks the top of a repository, where rt looks for crates.txt)
  mkdir -p "$2/.git" && cp crates.txt HANDLES "$2" || return 1
  for crate in crates/*; do
    mkdir -p "$2/$crate/out" || return 1
    for part in src specs proofs; do
      [ ! -d "$crate/$part" ] || cp -R "$crate/$part" "$2/$crate" || return 1
    done
    [ "$crate" != "crates/$1" ] && [ -e "$work/done/${crate#crates/}" ] || continue
    cp -Rl "$crate/out/rlib" "$2/$crate/out" 2>/dev/null || cp -R "$crate/out/rlib" "$2/$crate/out" || return 1
  done
  for part in rlib incremental; do
    [ ! -d "crates/$1/out/$part" ] || mv "crates/$1/out/$part" "$2/crates/$1/out" || return 1
  done
}

# Proves a crate: alone with all processors, else with those that are left, two at least.
prove() {
  copy_for "$1" "$work/copies/$1" || return 1
  jobs=$((processors + 1 - $(count at-work)))
  [ "$jobs" -ge 2 ] || jobs=2
  [ "$jobs" -le "$processors" ] || jobs=$processors
  verb=lib
  [ ! -f "crates/$1/src/main.rt" ] || verb=check
  (cd "$work/copies/$1/crates/$1" && nice -n "$2" rt "$verb" --jobs "$jobs") >"crates/$1/out/check.log" 2>&1 &&
    keep_work "$1"
}

of=$(grep -c . "$work/plan")
say "the program isn't built yet. Its $of crates are proved first, up to $at_once at a time. That takes long, and once (README.md, \"Set up\")"
began=$(date +%s)
spent() { echo $((($(date +%s) - began) / 60)); }
while [ "$(count done)" -lt "$of" ] && [ "$(count failed)" -eq 0 ]; do
  while read -r nice name needs; do
    [ "$(count at-work)" -lt "$at_once" ] || break
    [ ! -e "$work/at-work/$name" ] && [ ! -e "$work/done/$name" ] || continue
    for need in $needs; do
      [ -e "$work/done/$need" ] || continue 2
    done
    : >"$work/at-work/$name"
    mkdir -p "crates/$name/out"
    (
      end=failed
      if prove "$name" "$nice"; then end=done; fi
      mv "$work/at-work/$name" "$work/$end/$name"
      [ "$end" = failed ] || say "$name is done, $(count done) of $of, after $(spent) minutes"
    ) </dev/null >>"$log" &
  done <"$work/plan"
  sleep 1
done
if [ "$(count failed)" -eq 0 ] && (cd crates/am_cli && rt run -- run </dev/null) >>"$log" 2>&1 && [ -x "$program" ]; then
  say "built, after $(spent) minutes"
  exit 0
fi
for name in $(ls "$work/failed"); do
  tail -n 20 "crates/$name/out/check.log" >&2
done
wait
say "the program couldn't be built. What rt said is in $log, and of each crate in its out/check.log"
exit 1
