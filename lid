#!/bin/sh -
# Runs lid with these words, in the caller's folder: the program under release/ where it was built from the sources of
# this tree, else one that is built here. `tools/install` copies this script; there it runs the program beside it.
# Its own words, which the program has not: --help, help COMMAND, COMMAND --help, --version. Its own failures begin with
# `./lid:` and end with status 69, or 70 where a program could not be built; all else is the program's.
set -u
trap '' XFSZ # a full `ulimit -f` is a write that fails, here and in the program

callers_path=${PATH-}
PATH=/usr/bin:/bin:/run/current-system/sw/bin # no tool of this script is taken from elsewhere

# the folder of this script: that of its name, without a process, where no link leads there
case $0 in
  *..*) here='' ;;
  /*) here=${0%/*} ;;
  ./*) here=$PWD ;;
  */*) here=$PWD/${0%/*} ;;
  *) here='' ;;
esac
if [ -h "$0" ] || ! { [ -n "$here" ] && { [ -e "$here/crates.txt" ] || [ -x "${here%/*}/libexec/lid/lid" ]; }; }; then
  here=$(readlink -f -- "$0" && echo x) || { echo "./lid: no folder of $0 was found" >&2; exit 69; }
  here=${here%??}
  here=${here%/*}
fi
built=$here/crates/lid/out/lid
installed=${here%/*}/libexec/lid/lid

# --- the short way ---------------------------------------------------------------------------------------------------

# The mark of a check: `names` has what was looked at, each a name from crates/ and a NUL after it, and `stamps` the
# second in which the kernel last changed each in any way (its ctime, which neither `cp -p`, `touch` nor `rsync -t` sets
# back, as they do the time that `[ a -nt b ]` compares). It says: a check of all checksums of release/SUMS found all
# right, and since then no file of a src/ or specs/ was changed, replaced, taken away or added, nor crates.txt, the
# program or its checksums, nor a name in crates/ or release/. (What changes in a proofs/ is seen by the next check: it
# changes no source and no program.)
# Where a second or a name differs, or there is no mark of this user's, all is checked again; where that finds all right,
# the mark is made anew, from times that were noted before it began and are two seconds and more older.
case ${XDG_CACHE_HOME-} in
  /*) memory=$XDG_CACHE_HOME/lid$here ;;
  *) memory=${HOME:-/dev/null}/.cache/lid$here ;;
esac

stamps() {
  cd "$here/crates" && LC_ALL=C exec xargs -0 -s 1900000 -a "$1" stat -c %Z
}

is_remembered() {
  [ -O "$memory/stamps" ] && [ -s "$memory/stamps" ] && stamps "$memory/names" 2> /dev/null | LC_ALL=C cmp -s - "$memory/stamps"
}

program=''
if ! [ -e "$here/crates.txt" ]; then
  if [ -x "$installed" ]; then program=$installed; fi
elif is_remembered; then
  program=$here/release/lid
fi
if [ -n "$program" ] && ! [ -t 2 ]; then
  case ${1-} in
    -* | help) ;;
    *)
      case ${2-} in
        --help | -h) ;;
        *)
          PATH=$callers_path
          exec "$program" "$@"
          ;;
      esac
      ;;
  esac
fi

# --- what the script says itself -------------------------------------------------------------------------------------

if [ -e "$here/crates.txt" ]; then
  shared=$here
else
  shared=${here%/*}/share/doc/lid
fi
COMMANDS='check strict place clock rate verify slack size wave unwave walk free emit gen'

usage_of() {
  case $1 in
    check) echo 'check NET [--root NAME]' ;;
    strict) echo 'strict NET VEC [--root NAME]' ;;
    place) echo 'place NET --wires FILE --reach L [--root NAME]' ;;
    clock) echo 'clock NET VEC [--root NAME] [--stations FILE] [--stalls FILE | --workers W] [--trace K]' ;;
    rate) echo 'rate NET [--root NAME] [--stations FILE]' ;;
    verify) echo 'verify NET CERT [--root NAME] [--stations FILE]' ;;
    slack) echo 'slack NET [--root NAME] [--stations FILE]' ;;
    size) echo 'size NET [--root NAME] [--stations FILE]' ;;
    wave) echo 'wave NET VEC --trace K [--root NAME] [--stations FILE]' ;;
    unwave) echo 'unwave FILE' ;;
    walk) echo 'walk NET VEC --schedule FILE [--root NAME] [--stations FILE]' ;;
    free) echo 'free NET VEC [--workers W] [--rounds R] [--tally] [--root NAME] [--stations FILE]' ;;
    emit) echo 'emit NET [--root NAME] [--stations FILE]' ;;
    gen) echo 'gen SEED --shells M [--run N]' ;;
    *) return 1 ;;
  esac
}

# what a command prints
what_of() {
  case $1 in
    check) echo 'whether the netlist is accepted, its shells and its channels' ;;
    strict) echo 'the outputs of the plain netlist, row by row' ;;
    place) echo 'the relay stations that wires of these lengths need' ;;
    clock) echo 'the outputs of the wrapped design, and its cycles' ;;
    rate) echo 'the throughput, with a certificate that anyone can check' ;;
    verify) echo 'whether a certificate shows the throughput' ;;
    slack) echo 'how many more relay stations each channel takes at this throughput' ;;
    size) echo 'how large stations must be, so that they cost no throughput that they need not' ;;
    wave) echo 'what the stations show, as waves (VCD)' ;;
    unwave) echo 'the trace that such a dump shows' ;;
    walk) echo 'what the source, the shells, the movers and the sink answer, step by step' ;;
    free) echo 'the outputs of the wrapped design, by free-running threads' ;;
    emit) echo 'the wrapped design as a netlist' ;;
    gen) echo 'a netlist made from a seed, or what a run of it shows' ;;
  esac
}

page_of() {
  case $1 in
    check) echo SYSTEM.md ;;
    place) echo PLACEMENT.md ;;
    clock) echo CLOCK.md ;;
    rate | verify) echo THROUGHPUT.md ;;
    slack | size) echo SIZING.md ;;
    wave | unwave) echo WAVES.md ;;
    walk) echo WALK.md ;;
    free) echo THREADS.md ;;
    emit) echo EMIT.md ;;
    gen) echo GENERATOR.md ;;
  esac
}

# one line for a file or an option of a usage line
word_of() {
  case $1 in
    NET) echo 'a netlist in BLIF' ;;
    VEC) echo 'rows of input bits; the first line names the inputs of the root' ;;
    CERT) echo 'a certificate, as rate prints it' ;;
    SEED) echo 'a number, 0 to 18446744073709551615' ;;
    FILE) echo 'a value change dump, as wave writes it' ;;
    --root) echo 'NAME: the model that is the root, in place of the first' ;;
    --stations) echo 'FILE: the relay stations, as place and size print them; without it there are none' ;;
    --stalls) echo 'FILE: the cycles in which the environment waits; not beside --workers' ;;
    --wires) echo 'FILE: the length of each channel' ;;
    --reach) echo 'L: how far a signal comes in a cycle, in the unit of the lengths; 1 or more' ;;
    --schedule) echo 'FILE: the numbers of actors, in the order of their steps' ;;
    --trace) echo 'K: what the stations show in the first K cycles, 1 to 1048576' ;;
    --workers) echo 'W: threads, 1 to 64' ;;
    --rounds) echo 'R: turns of each actor at once, 0 to 1000000' ;;
    --tally) echo 'what each worker did, after the rows' ;;
    --shells) echo 'M: so many shells, 1 to 2000' ;;
    --run) echo 'N: runs it with N rows, 1 to 1000000' ;;
    *) return 1 ;;
  esac
}

help() {
  echo 'lid COMMAND FILES OPTIONS'
  echo
  for command in $COMMANDS; do
    printf '  %-8s %s\n' "$command" "$(what_of "$command")"
  done
  cat << TEXT

lid help COMMAND    its files and options
lid --version       which release this is

All commands, options and texts: $shared/docs/MANUAL.md
What a line means that lid says: $shared/docs/REFUSALS.md
TEXT
}

help_of() {
  usage=$(usage_of "$1") || {
    echo "./lid: there is no such command; the commands are $COMMANDS" >&2
    exit 2
  }
  printf 'lid %s\n\nPrints %s.\n\n' "$usage" "$(what_of "$1")"
  for word in $(printf '%s' "${usage#* }" | tr '[]|' '   '); do
    case $word in
      FILE) [ "$1" = unwave ] || continue ;;
    esac
    if means=$(word_of "$word"); then printf '  %-11s %s\n' "$word" "$means"; fi
  done
  page=$(page_of "$1")
  printf '\n%s, "%s"%s\n' "$shared/docs/MANUAL.md" "$1" "${page:+; $page}"
}

version() {
  about=$here/release
  [ -e "$here/crates.txt" ] || about=$shared
  if [ "$about" != "$shared" ] && ! is_released; then
    printf '%s\n' "lid 1.0, of a tree that is no release: $reason" | tr -c '[:print:]\n' '?'
  else
    echo "lid 1.0, $(cat "$about/VERSION")"
    echo "toolchain $(cat "$about/TOOLCHAIN")"
  fi
}

fail() {
  printf './lid: %s\n' "$1" | tr -c '[:print:]\n' '?' >&2
  exit "${2:-69}"
}

# --- which program ---------------------------------------------------------------------------------------------------

# the names of release/SUMS, which stand after 64 digits and two blanks
listed() {
  cut -c67- release/SUMS
}

# the kind and the name of all that stands in these folders (src, specs, proofs) of the crates that the program is built from
in_folders() {
  listed | grep '^crates/' | cut -d/ -f1,2 | uniq | while read -r crate; do
    for part; do
      if [ -e "$crate/$part" ]; then printf '%s\0' "$crate/$part"; fi
    done
  done | xargs -0 sh -c 'find "$@" -printf "%y %p\0"' sh
}

# notes what stands there before a check, in files of this process
note() {
  mkdir -p "$memory" && [ -O "$memory" ] && in_folders src specs > "$memory/list.$$" &&
    sed -z 's|^. crates/||' "$memory/list.$$" > "$memory/names.$$" &&
    printf '%s\0' ../crates.txt . ../release ../release/SUMS ../release/lid >> "$memory/names.$$" &&
    (stamps "$memory/names.$$" > "$memory/stamps.$$")
}

# keeps it after a check that began in this second and found all right, unless a file is so new that a further change could
# have the same time
keep() {
  newest=$(sort -n "$memory/stamps.$$" | tail -n 1)
  if [ "$2" = right ] && [ "$newest" -lt $(($1 - 2)) ]; then
    mv "$memory/names.$$" "$memory/names" && mv "$memory/stamps.$$" "$memory/stamps"
  fi
  rm -f "$memory/list.$$" "$memory/names.$$" "$memory/stamps.$$"
}

# why the program under release/ is not that of this tree, or `right`; nothing where a process of the check failed
fault() {
  if [ "$(uname -sm)" != 'Linux x86_64' ]; then
    echo "the program is for x86-64 Linux, and this is $(uname -sm)"
  elif ! { [ -r release/SUMS ] && [ -f release/lid ]; }; then
    echo 'release/lid or release/SUMS is not here; git checkout -- release brings them back'
  elif ! [ -x release/lid ]; then
    echo 'release/lid may not be run; chmod +x release/lid'
  elif ! command -v sha256sum > /dev/null; then
    echo "there is no sha256sum in $PATH, which tells whether release/lid is of these sources; install coreutils"
  elif ! grep -q '^[0-9a-f]*  release/lid$' release/SUMS; then
    echo 'release/SUMS does not list release/lid, so nothing tells whether it is whole; take a newer release'
  elif ! grep -q '^[0-9a-f]*  crates.txt$' release/SUMS; then
    echo 'release/SUMS does not list crates.txt, so it is not whole; git checkout -- release brings it back'
  else
    fault_of_sums
  fi
}

# the files whose checksum is another, each after `changed`, by four processes, of which each says that it ended; ~ stands
# for release/SUMS
changed() {
  for part in 1 2 3 4; do
    {
      sums=$(sed -n "$part~4p" release/SUMS) && [ -n "$sums" ] || exit
      if wrong=$(printf '%s\n' "$sums" | sha256sum --quiet --strict --check 2> /dev/null); then
        echo right
      else
        printf '%s\n' "${wrong:-~: FAILED}" | sed 's/^/changed /'
      fi
    } &
  done
  wait
}

# the files that stand among the sources and that release/SUMS does not list, or the other way round, each after `new`, and
# ~ that shows that all were compared
added() {
  {
    listed | grep '^crates/' | sed 's/^/f /' | tr '\n' '\0'
    if [ -n "$noted" ]; then cat "$memory/list.$$"; else in_folders src specs; fi && in_folders proofs && printf 'f ~\0'
  } | sed -z '/^d /d' | sort -z | uniq -zu | tr '\0\n' '\n?' | sed 's/^./new/'
}

ALL_RIGHT='new ~
right
right
right
right'

fault_of_sums() {
  found=$({ changed & added & wait; } | sort)
  case $found in
    "$ALL_RIGHT")
      if said=$(release/lid 2>&1 < /dev/null) || [ "$said" != 'lid: usage' ]; then
        echo "release/lid does not run on this machine (it wants x86-64 and GLIBC 2.34): $said"
      else
        echo right
      fi
      ;;
    'changed release/lid:'*) echo 'release/lid is damaged: its checksum is another; git checkout -- release/lid brings it back' ;;
    'changed ~:'*) echo 'release/SUMS is not as it was when release/lid was built; git checkout brings it back' ;;
    changed*)
      found=${found#* }
      printf '%s\n' "${found%%: FAILED*} is not as it was when release/lid was built; git checkout brings it back"
      ;;
    'new ~'* | right*) ;;
    new*) printf '%s\n' "$found" | sed -n '1s/^new \(.*\)/\1 was added since release\/lid was built, or its line in release\/SUMS is gone; git status tells/p' ;;
  esac
}

is_released() {
  if [ -n "$program" ]; then return; fi
  began=$(date +%s)
  if (cd "$here" && LC_ALL=C && export LC_ALL && note) 2> /dev/null; then
    noted=yes
  else
    noted=''
    rm -f "$memory/list.$$" "$memory/stamps.$$" 2> /dev/null
  fi
  reason=$(cd "$here" && LC_ALL=C && export LC_ALL && fault)
  reason=${reason:-the check of release/SUMS did not come to its end; processes or memory may be few, so try again}
  (keep "$began" "$reason") 2> /dev/null
  [ "$reason" = right ]
}

# whether a program that was built here is older than a source
is_stale() {
  [ -x "$built" ] || return 0
  [ -n "$(find "$here/crates.txt" "$here"/crates/*/src "$here"/crates/*/specs "$here"/crates/*/proofs \
    -newer "$built" -print -quit 2> /dev/null)" ]
}

# proves all crates, since only a proved crate is built, and builds the program
build() {
  PATH=$callers_path command -v rt > /dev/null ||
    fail "$reason (or build a program of these sources: that wants the toolchain, rt, which is not here)" 70
  log=$(mktemp "${TMPDIR:-/tmp}/lid-build.XXXXXX") || exit 70
  printf './lid: %s\n' "$reason" | tr -c '[:print:]\n' '?' >&2
  echo "./lid: proving all crates, then building the program; that takes tens of minutes. The toolchain's words: $log" >&2
  # rt runs what it has built, here on the example of the crate
  (PATH=$callers_path && cd "$here/crates/lid" && rt run -- strict data/one.blif data/one.vec) 2>&1 | tee "$log" |
    grep --line-buffered -a '^rt: [a-z_]* proved' >&2
  [ -x "$built" ] || fail "the program was not built; $log tells why" 70
  touch "$built"
}

find_program() {
  if ! [ -e "$here/crates.txt" ]; then
    [ -n "$program" ] || fail "this script stands alone in $here; run it in its tree, link to it (ln -s), or copy it by tools/install"
  elif is_released; then
    program=$here/release/lid
  else
    if is_stale; then build; fi
    program=$built
  fi
}

# --- the words -------------------------------------------------------------------------------------------------------

# whether a value is a number from $2 to $3; where it is too long to tell, not
is_within() {
  case $1 in
    '' | *[!0-9]* | 0?* | ??????????*) return 1 ;;
  esac
  [ "$1" -ge "$2" ] && [ "$1" -le "$3" ]
}

is_value() {
  case $1 in
    --trace) is_within "$2" 1 1048576 ;;
    --workers) is_within "$2" 1 64 ;;
    --rounds) is_within "$2" 0 1000000 ;;
    --run) is_within "$2" 1 1000000 ;;
    --reach) is_within "$2" 1 999999999 ;;
    --shells) is_within "$2" 0 999999999 ;;
  esac
}

# whether the words are surely a job of their command. Others may be one too: they are run in a way that tells
is_job() {
  command='' files=0 given=' '
  while [ $# -gt 0 ]; do
    case $1 in
      --tally) option=$1 value='' ;;
      --*=*) option=${1%%=*} value=${1#*=} ;;
      -*)
        [ $# -gt 1 ] || return 1
        option=$1 value=$2
        shift
        case $value in -?*) return 1 ;; esac
        ;;
      *)
        option=''
        if [ -z "$command" ]; then command=$1; else files=$((files + 1)); fi
        [ "$command$files" != gen1 ] || is_within "$1" 0 999999999 || return 1
        ;;
    esac
    shift
    [ -n "$option" ] || continue
    case $given in *" $option "*) return 1 ;; esac
    is_value "$option" "$value" || return 1
    given="$given$option "
  done
  is_called "$command" "$files" "$given"
}

# whether a command has so many files, these options, and those that it needs
is_called() {
  usage=$(usage_of "$1") || return 1
  for option in $3; do
    case "$usage " in *[' [']"$option"[' ]']*) ;; *) return 1 ;; esac
  done
  case $1 in
    place) wanted=1 needs='--wires --reach' ;;
    strict | clock | verify | free) wanted=2 needs='' ;;
    wave) wanted=2 needs='--trace' ;;
    walk) wanted=2 needs='--schedule' ;;
    gen) wanted=1 needs='--shells' ;;
    *) wanted=1 needs='' ;;
  esac
  for option in $needs; do
    case $3 in *" $option "*) ;; *) return 1 ;; esac
  done
  case $3 in *' --stalls '*' --workers '* | *' --workers '*' --stalls '*) return 1 ;; esac
  [ "$2" = "$wanted" ]
}

# runs words that may be no job, on a terminal, and says then what the command takes
run_and_hint() {
  "$program" "$@"
  status=$?
  if [ $status = 2 ]; then
    is_job "$@"
    usage=$(usage_of "$command") || usage='COMMAND FILES OPTIONS' command='--help'
    case $command in --help) ;; *) command="help $command" ;; esac
    printf 'usage: lid %s\n(lid %s says more)\n' "$usage" "$command" >&2
  fi
  exit $status
}

# --- what is asked for -----------------------------------------------------------------------------------------------

case $#:${1-}:${2-} in
  1:--help: | 1:-h: | 1:help:) help; exit ;;
  2:help:* ) help_of "$2"; exit ;;
  1:--version:) version; exit ;;
  2:*:--help | 2:*:-h) if usage_of "$1" > /dev/null; then help_of "$1"; exit; fi ;;
esac
find_program
set -f # the words are the program's: none is a pattern
PATH=$callers_path
if [ -t 2 ] && ! is_job "$@"; then run_and_hint "$@"; fi
exec "$program" "$@"
