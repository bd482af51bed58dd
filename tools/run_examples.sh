#!/usr/bin/env bash
# Makes the calls of examples/cases.txt and those of tools/made_jobs.py, and compares what each call prints, its exit status and its
# line on standard error with the case's line. Runs ./tinsel, or the program that is given as a word. Fails if a call differs. A case
# that needs what this machine does not have is skipped. Then tools/check_traces.py checks the examples' traces, and
# tools/run_programs.sh runs the programs in C.
set -u
top=$(cd "$(dirname "${BASH_SOURCE[0]}")/.." && pwd)
program=$(realpath "${1:-$top/tinsel}")
cd "$top/examples" || exit 1
work=$(mktemp -d) || exit 1
trap 'rm -rf "$work"' EXIT
python3 "$top/tools/made_jobs.py" "$work" >"$work/made" || exit 1
passed=0
failed=0
skipped=0

# trimmed TEXT: the text without the spaces at its ends
trimmed() {
  local text=$1
  text=${text#"${text%%[! ]*}"}
  printf '%s' "${text%"${text##*[! ]}"}"
}

# sort_letters FILE: sorts the `host` lines of a report, which come before its other lines
sort_letters() {
  { grep '^host ' "$1" | LC_ALL=C sort; grep -v '^host ' "$1"; } >"$1.sorted"
  mv "$1.sorted" "$1"
}

# call WORDS INPUT OUTPUT: makes a call, and sets `status`
call() {
  local words=() input=$2 output=$work/printed
  read -ra words <<<"$1"
  [ "$input" = - ] && input=/dev/null
  [ "$3" = full ] && output=/dev/full
  : >"$work/printed"
  "$program" "${words[@]}" <"$input" >"$output" 2>"$work/told"
  status=$?
}

# is_so STATUS NAME OUTPUT: whether the call ended, printed and told so
is_so() {
  local wanted=$3
  case $wanted in -|full) wanted=/dev/null ;; esac
  : >"$work/wanted"
  [ "$1" = 0 ] || echo "tinsel: $2" >"$work/wanted"
  [ "$status" = "$1" ] && cmp -s "$work/printed" "$wanted" && cmp -s "$work/told" "$work/wanted"
}

while IFS='|' read -r words input ended output form; do
  case $words in '#'*) continue ;; esac
  words=$(trimmed "$words")
  input=$(trimmed "$input")
  output=$(trimmed "$output")
  form=$(trimmed "$form")
  read -r number name <<<"$ended"
  if [ "$output" = full ] && [ ! -c /dev/full ]; then
    skipped=$((skipped + 1))
    continue
  fi
  call "$words" "$input" "$output"
  [ "$form" = sorted ] && sort_letters "$work/printed"
  if is_so "$number" "$name" "$output"; then
    passed=$((passed + 1))
  else
    echo "tinsel $words < $input: ends with status $status and '$(cat "$work/told")', or prints something else"
    failed=$((failed + 1))
  fi
done < <(cat cases.txt "$work/made")

# Each job of examples/ is in a case.
for job in *.job; do
  grep -q "| $job |" cases.txt || { echo "$job is in no case"; failed=$((failed + 1)); }
done
echo "examples: $passed passed, $failed failed, $skipped skipped"
"$top/tools/check_traces.py" "$program" || failed=$((failed + 1))
"$top/tools/run_programs.sh" "$program" && [ "$failed" = 0 ] && [ "$passed" != 0 ]
