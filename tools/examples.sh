#!/usr/bin/env bash
# Runs each example, published models too, as its first line says (`# hcsp WORDS`), and each text of C by `cexec`, and compares what stands on output
# with NAME.trace or NAME.verdict, or on error with NAME.refusal, and the status with the one that this answer has. The last
# line is 'N examples, M differ'; the status is 1 where one differs.
set -u

# the status of an action with this answer, by the last line of it
status_of() {
  case "$1 $(tail -n 1 "$2")" in
    convert*) echo 0 ;;
    *' end deadlock '*) echo 10 ;;
    *' end overflow '*) echo 11 ;;
    *' end limit '*) echo 12 ;;
    *' end terminated '* | *' end horizon '*) echo 0 ;;
    verify' verified '*) echo 0 ;;
    verify' not a behaviour '*) echo 15 ;;
    *) echo 'of no known answer' ;;
  esac
}

home=$(cd "$(dirname "$(readlink -f "$0")")/.." && pwd)
out=$(mktemp)
err=$(mktemp)
trap 'rm -f "$out" "$err"' EXIT
all=0
wrong=0
for source in "$home"/examples/*.hcsp "$home"/examples/published/*.hcsp "$home"/examples/*.c; do
  words=(cexec)
  [ "${source##*.}" = c ] || read -r -a words < <(sed -n '1s/^# hcsp //p' "$source")
  "$home/hcsp" "${words[@]}" < "$source" > "$out" 2> "$err"
  status=$?
  name=${source%.*}
  if [ -f "$name.refusal" ]; then
    cmp -s "$err" "$name.refusal" && [ ! -s "$out" ] && [ "$status" = 1 ]
  else
    answer=$name.trace
    [ -f "$answer" ] || answer=$name.verdict
    cmp -s "$out" "$answer" && [ ! -s "$err" ] && [ "$status" = "$(status_of "${words[0]}" "$answer")" ]
  fi || { echo "examples: $(basename "$source") differs (status $status)"; wrong=$((wrong + 1)); }
  all=$((all + 1))
done
echo "$all examples, $wrong differ"
[ "$wrong" = 0 ]
