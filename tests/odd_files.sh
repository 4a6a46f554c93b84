#!/usr/bin/env bash
# Runs `certify` in folders whose files are missing, empty, binary, a folder, or too long, and compares what it prints.
set -euo pipefail
. "$(dirname "$0")/odd.sh" certify

mkdir "$room/missing" && case_ missing 'refused sheet 19 0 1'

mkdir -p "$room/folder/sheet.hoa" && case_ folder 'refused sheet 19 0 1'

mkdir "$room/no_rule" && printf 'HOA:' > "$room/no_rule/sheet.hoa"
case_ no_rule $'sheet 1 tokens\n0 word HOA:\n4 end\nrefused rule 19 0 1'

mkdir "$room/empty" && : > "$room/empty/sheet.hoa" && : > "$room/empty/rule.hoa"
case_ empty $'sheet 0 tokens\n0 end\nrule 0 tokens\n0 end'

mkdir "$room/binary" && printf '\0\377\1' > "$room/binary/sheet.hoa"
case_ binary 'sheet byte 0 begins no token'

mkdir "$room/number" && printf ' 010' > "$room/number/sheet.hoa"
case_ number 'sheet byte 1 begins a number above 9999 or with a needless 0'

mkdir "$room/long" && head -c 61441 /dev/zero | tr '\0' ' ' > "$room/long/sheet.hoa"
case_ long 'refused sheet 18 61440 1'

mkdir "$room/huge" && truncate -s 3G "$room/huge/sheet.hoa"
case_ huge 'refused sheet 18 61440 1'

mkdir "$room/full" && head -c 61440 /dev/zero | tr '\0' ' ' > "$room/full/sheet.hoa" && printf '"' > "$room/full/rule.hoa"
case_ full $'sheet 0 tokens\n61440 end\nrule byte 0 begins no token'

all_as_expected
