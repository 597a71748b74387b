# shellcheck shell=bash disable=SC2154
# What the scripts in the top folder share: their words are read, a program of this repository is built, or its sources are
# run. Such a script sets `name`, its own, `top`, that folder, `crate`, the program's, and `alone`, `numbered` and `filed`, its
# options with nothing, a number or a file behind them, and reads this file.
take_program() { # CRATE
  crate=$1
  program=$top/crates/$crate/out/$crate
}
take_program "$crate"

say() { echo "$name: $*" >&2; }

refuse() { # STATUS TEXT: ends the script, before anything is built or run
  say "$2"
  exit "$1"
}

# ------------------------------------------------------------------------------------------------ words

declare -A given=()
words=()

# Options count wherever they stand, up to `--`; the others are `words`. A sign and a digit begin a number, no option.
read_words() {
  while [ $# -gt 0 ]; do
    case $1 in
      --) words+=("${@:2}"); return ;;
      --help | -h) cat "$top/tools/told/$name.txt"; exit 0 ;;
      -[!0-9]*) read_option "$@" ;;
      *) words+=("$1") ;;
    esac
    case " $numbered ${filed-} " in *" $1 "*) shift ;; esac
    shift
  done
  [ "${given[--try]-}" ] || [ -z "${given[--steps]-}${given[--seconds]-}" ] ||
    refuse 64 "--steps and --seconds are for --try alone"
}

read_option() {
  case " $alone " in *" $1 "*) given[$1]=yes; return ;; esac
  case " ${filed-} " in
    *" $1 "*)
      [ $# -gt 1 ] || refuse 64 "$1 wants a file behind it"
      given[$1]=$2
      return ;;
  esac
  case " $numbered " in
    *" $1 "*)
      [ $# -gt 1 ] || refuse 64 "$1 wants a number behind it"
      given[$1]=$(as_decimal "$2")
      within "${given[$1]}" "${least[$1]-0}" "${most[$1]-18446744073709551615}" ||
        refuse 64 "$1 wants a number from ${least[$1]-0} to ${most[$1]-18446744073709551615}, and not $2" ;;
    *)
      case " $numbered " in
        *" ${1%%=*} "*) say "there is no option $1: write ${1%%=*} ${1#*=}" ;;
        *) say "there is no option $1" ;;
      esac
      refuse 64 "the options are $alone ${filed:+$filed }$numbered, and ./$name --help says what each does; -- ends them" ;;
  esac
}

declare -A least=([--turns]=1 [--steps]=1 [--seconds]=1)
declare -A most=([--turns]=1000000000 [--pages]=4294967295 [--elements]=4294967295 [--seconds]=86400 [--steps]=1000000000000)

# A number in hexadecimal as the same one in decimal; another word, and one of more than 64 bits, stays.
as_decimal() {
  local digits=${1#[-+]}
  if [[ $digits =~ ^0[xX]0*[0-9a-fA-F]{1,16}$ ]]; then
    printf '%s%u' "${1%"$digits"}" "$digits"
  else
    printf '%s' "$1"
  fi
}

# Whether a word is a decimal number, a plus before it or none, from a number to another one.
within() {
  local digits=${1#+}
  [[ $digits =~ ^[0-9]+$ ]] || return 1
  while [[ $digits = 0?* ]]; do digits=${digits#0}; done
  not_above "$2" "$digits" && not_above "$digits" "$3"
}

not_above() { [ ${#1} -lt ${#2} ] || { [ ${#1} -eq ${#2} ] && [[ ! $1 > $2 ]]; }; }

# That a file is there and can be read.
need_file() {
  [ ! -d "$1" ] || refuse 66 "$1 is a directory"
  [ -e "$1" ] || refuse 66 "there is no file $1"
  [ -r "$1" ] || refuse 66 "the file $1 cannot be read"
}

need_python() { command -v python3 > /dev/null || refuse 127 "python3, which $1, is not on the path"; }

# ------------------------------------------------------------------------------------------------ building

# The crates of this repository that the program stands on, and itself, by crates.txt.
crates() {
  awk -F: -v program="$crate" '!/^#/ && NF > 1 { split($1, name, " "); uses[name[1]] = $2 }
    function visit(crate,  used, count, n) {
      if (crate in seen || !(crate in uses)) return
      seen[crate]; count = split(uses[crate], used, " ")
      for (n = 1; n <= count; n++) visit(used[n])
      print crate
    }
    END { visit(program) }' "$top/crates.txt"
}

# What the build says: a line for each crate that is done, and every ten seconds how far the one is that is proved now.
progress() {
  local all done=0 said=0 line text
  all=$(crates | wc -l)
  while IFS= read -r line; do
    case $line in
      *"checked "*", "*" of "*)
        if (( SECONDS - said >= 10 )); then
          text=${line#*checked }
          say "${text%%::*}: ${text##*, } functions"
          said=$SECONDS
        fi ;;
      "crate "*": modules"*)
        text=${line#crate }
        done=$((done + 1)) said=$SECONDS
        text=${text%%:*}
        say "$text is proved: $done of the crates, at most $((all - done)) left, $((SECONDS / 60)) min $((SECONDS % 60)) s" ;;
    esac
  done
}

need_rt() {
  command -v rt > /dev/null && return
  say "the program is not built, and the command rt, which builds it or runs its sources, is not on the path"
  refuse 127 "it is part of the Rattle kit, which README.md names"
}

newer() {
  find "$top/crates" -path '*/out' -prune -o \( -name '*.rt' -o -name '*.antt' \) -newer "$program" -print -quit
}

is_built() { [ -x "$program" ] && [ -z "$(newer)" ]; }

# How many processor seconds the proofs of those crates take that this folder has not built, by docs/GATE.md.
seconds_left() {
  local one made
  for one in $(crates); do
    made=$top/crates/$one/out/rlib/stamp
    [ -e "$made" ] && [ -z "$(find "$top/crates/$one" -path '*/out' -prune -o -type f -newer "$made" -print -quit)" ] ||
      echo "$one"
  done | awk 'NR == FNR { left["`" $1 "`"]; next } $2 in left { gsub(/[*]/, "", $3); sum += $3 } END { print sum + 0 }' \
    FS='[ ]+' - FS=' *[|] *' "$top/docs/GATE.md"
}

# The program is built by its stored run.
build() {
  need_rt
  local log left
  left=$(( $(seconds_left) / 60 ))
  say "the program is not built, or its sources are newer: its $(crates | wc -l) crates are proved and compiled first"
  if (( left > 1 )); then
    say "this takes up to $left processor minutes, about $((left / 2)) minutes on two cores; stop it when you like:" \
      "a crate that is proved stays so"
    say "./$name --try runs the sources without, unproved, in a minute or two"
  fi
  log=$(mktemp)
  mapfile -t stored < "$top/crates/$crate/args"
  if ! (cd "$top/crates/$crate" && rt run -- "${stored[@]}" 2>&1 > /dev/null < stdin) | tee "$log" | progress; then
    tail -n 20 "$log" >&2
    refuse 1 "the build failed; all that it said is in $log"
  fi
  rm -f "$log"
  say "the program is built, after $((SECONDS / 60)) min $((SECONDS % 60)) s"
}

# ------------------------------------------------------------------------------------------------ running

# What the toolchain says where the sources did not run to their end, and a status of ours: its own are the program's, too.
no_answer() { # STATUS LOG
  grep -v -e '^interpreter: no-answer: ' -e '^races: ' -e '^run=' "$2" >&2 || true
  if grep -q '^checked: no-answer: .*time limit' "$2"; then
    say "unproved sources run slowly: give them more than $seconds seconds by --seconds N," \
      "or leave --try out, which builds the program first"
  else
    say "the toolchain said that: the sources did not run to their end"
  fi
  case $1 in 1) echo 1 ;; 6) echo 75 ;; *) echo 70 ;; esac
}

# Runs the program on these words, or with --try its sources; the status is the program's, and what it says is in `said`.
run_program() {
  local log status=0 steps=${given[--steps]-2000000000} seconds=${given[--seconds]-600}
  log=$(mktemp)
  if [ "${given[--try]-}" ]; then
    need_rt
    say "running the sources, of which nothing is proved for that: the toolchain reads them first, for a minute or two," \
      "or longer on a busy machine"
    (cd "$top/crates/$crate" && rt try --steps "$steps" --seconds "$seconds" -- "$@" 2> "$log") || status=$?
    if grep -q '^run=ended ' "$log"; then
      said=$(grep -v -e '^checked: ' -e '^interpreter: ' -e '^races: ' -e '^run=' "$log" || true)
    else
      status=$(no_answer "$status" "$log")
      said=
    fi
  else
    "$program" "$@" 2> "$log" || status=$?
    said=$(cat "$log")
  fi
  rm -f "$log"
  [ -z "$said" ] || echo "$said" >&2
  return "$status"
}
