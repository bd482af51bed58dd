#!/usr/bin/env bash
# Runs the jobs of examples/c with the program that is given, and compares what each prints with its file NAME.out; a graph's job is
# placed and assembled too, and its `host` lines are sorted, since letters come to the host in any order. Where the compiler and Python 3 are here, it tests the tools, builds each job as its source says, runs that job
# too, computes NAME.out in Python, and does what docs/PROGRAMMING.md says. Otherwise it says what it skipped.
set -u
top=$(cd "$(dirname "${BASH_SOURCE[0]}")/.." && pwd)
program=$(realpath "${1:-$top/tinsel}")
cd "$top/examples/c" || exit 1
work=$(mktemp -d) || exit 1
trap 'rm -rf "$work"' EXIT
passed=0
failed=0

# check WHAT WANTED COMMAND..: whether the command ends with status 0 and prints the file WANTED
check() {
  local what=$1 wanted=$2
  shift 2
  if "$@" >"$work/printed" && cmp -s "$work/printed" "$wanted"; then
    passed=$((passed + 1))
  else
    echo "$what: the status or the output is another"
    failed=$((failed + 1))
  fi
}

run_job() { "$program" run <"$1"; }
run_graph() {
  "$program" run <"$1" >"$work/report" || return
  grep '^host ' "$work/report" | LC_ALL=C sort
  grep -v '^host ' "$work/report"
}
map_job() { "$program" map <"$1"; }
assemble() { sed '1,/^asm all$/d; /^end$/,$d' "$1" | "$program" asm; }

# is_right NAME JOB: a job does what is wanted of the example
is_right() {
  if grep -q '^graph ' "$2"; then
    sed -n 's/^\.word 0x//p' "$2" >"$work/words"
    check "assembly of $2" "$work/words" assemble "$2"
    check "map of $2" "$1.map" map_job "$2"
    check "run of $2" "$1.out" run_graph "$2"
  else
    check "run of $2" "$1.out" run_job "$2"
  fi
}

for source in *.c; do
  is_right "${source%.c}" "${source%.c}.job"
done

missing=
for tool in python3 riscv64-unknown-elf-gcc; do
  command -v "$tool" >/dev/null || missing="$missing $tool"
done
if [ "$missing" != '' ]; then
  echo "programs in C: $passed passed, $failed failed; no program was built, since this machine lacks$missing"
  [ "$failed" = 0 ]
  exit
fi

mkdir "$work/bin" "$work/c"
ln -s "$program" "$work/bin/tinsel"
cp ./*.c ./*.graph "$work/c"
export PATH="$work/bin:$top/tools:$PATH" PYTHONDONTWRITEBYTECODE=1
for source in *.c; do
  name=${source%.c}
  [ -f "$name.out" ] && check "expected.py $name" "$name.out" python3 expected.py "$name"
  build=$(sed -n 's/^ \* Build: //p' "$source")
  if (cd "$work/c" && $build); then
    is_right "$name" "$work/c/$name.job"
  else
    echo "$build: fails"
    failed=$((failed + 1))
  fi
done
python3 "$top/tools/test_tools.py" 2>"$work/told" || { cat "$work/told"; failed=$((failed + 1)); }
python3 "$top/tools/try_document.py" "$top/docs/PROGRAMMING.md" || failed=$((failed + 1))
echo "programs in C: $passed passed, $failed failed"
[ "$failed" = 0 ]
