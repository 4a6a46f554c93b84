#!/usr/bin/env bash
# Writes the table of cases and the expected answers anew: crates/conformance/stdin and crates/conformance/stdout.
# With --check it writes nothing, and says whether the stored files are those that it would write.
set -euo pipefail
here="$(cd "$(dirname "$0")" && pwd)"
crate="$here/../../crates/conformance"
missing=()
for tool in bison flex gcc python3; do command -v "$tool" > /dev/null || missing+=("$tool"); done
if ((${#missing[@]})); then apt-get install -y -q "${missing[@]}"; fi
work="$(mktemp -d)"
trap 'rm -rf "$work"' EXIT
cp "$here"/hoa.h "$here"/hoa.l "$here"/hoa.y "$here"/expect.c "$work"
cd "$work"
bison -Wall -Werror -d hoa.y -o hoa.tab.c
flex -o hoa.lex.c hoa.l
gcc -O2 -Wall -Werror -o expect expect.c hoa.tab.c hoa.lex.c
python3 "$here/make_cases.py" > cases
./expect < cases > answers
if [[ "${1:-}" == --check ]]; then
  cmp cases "$crate/stdin"
  cmp answers "$crate/stdout"
else
  cp cases "$crate/stdin"
  cp answers "$crate/stdout"
fi
echo "$(wc -l < cases) cases, answered by $(bison --version | head -n 1) and $(flex --version)"
