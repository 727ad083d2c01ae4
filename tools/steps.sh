# shellcheck shell=bash
# What the scripts have in common that count: it is sourced by one that has `top`, the repository. Their last line is
# 'N passed, M failed'.
passed=0 failed=0
room=$(mktemp -d)
trap 'rm -rf "$room"' EXIT
said=$room/said skipped=$room/skipped

# A second driver in software. Its pools round up what a set takes.
swiftshader=/usr/lib/chromium/vk_swiftshader_icd.json

# fault NAME: counts a failure, and shows the end of what was said.
fault() {
  failed=$((failed + 1))
  echo "FAILED: $1"
  tail -n 40 "$said" | sed 's/^/    /'
}

# step NAME COMMAND..: counts whether a command ends with 0, and shows its last line, or the end of what a
# failed one wrote. With 3 it says what is missing, and isn't counted.
step() {
  local name=$1 status=0
  shift
  "$@" >"$said" 2>&1 || status=$?
  case $status in
    0) passed=$((passed + 1)) && echo "$name: $(tail -n 1 "$said" | grep . || echo ok)" ;;
    3) echo "skipped: $name: $(tail -n 1 "$said" | sed 's/^skipped: //')" ;;
    124) fault "$name: it took too long" ;;
    *) fault "$name: exit code $status" ;;
  esac
  return "$status"
}

# part COMMAND..: runs a tool, adds what its last line counts, and keeps what it skipped.
part() {
  echo "== ${*#"$top/"}"
  "$@" | tee "$said"
  local status=${PIPESTATUS[0]}
  sed -n "s#^skipped: #${1#"$top/"}: #p" "$said" | awk '!seen[$0]++' >>"$skipped"
  # A part that ends with 3 could do nothing, and has said why.
  [ "$status" -ne 3 ] || return 0
  if [[ $(tail -n 1 "$said") =~ ^([0-9]+)\ passed,\ ([0-9]+)\ failed$ ]]; then
    passed=$((passed + BASH_REMATCH[1]))
    failed=$((failed + BASH_REMATCH[2]))
    # A part that ends badly has failed, whatever it counted.
    [ "$status" -eq 0 ] || [ "${BASH_REMATCH[2]}" -gt 0 ] || fault "$1 ended with $status"
  else
    fault "$1 counted nothing"
  fi
}

has() {
  command -v "$1" >/dev/null || { echo "skipped: $2: $1 is missing: apt-get install ${3:-$1}"; return 1; }
}

# formatted FILE..: each is as rustfmt has it. It goes through standard input, because rustfmt would follow the modules of
# a file to the generated ones; there --check ends with 0.
formatted() {
  local file status=0
  for file; do
    rustfmt --edition 2024 <"$file" | diff -U 1 "$file" - || status=1
  done
  return "$status"
}

on_swiftshader() {
  VK_DRIVER_FILES=$swiftshader VK_ICD_FILENAMES=$swiftshader "$@"
}

# finish: the last line, and the end.
finish() {
  echo "$passed passed, $failed failed"
  [ "$failed" -eq 0 ] && [ "$passed" -gt 0 ]
  exit
}
