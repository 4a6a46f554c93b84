#!/usr/bin/env bash
# Runs `counts` in folders whose files are missing, empty, binary, a folder, or too long, and compares what it prints.
set -euo pipefail
. "$(dirname "$0")/odd.sh" counts

header='HOA: v1 States: 0 AP: 0 Acceptance: 1 Inf(0) --BODY-- --END--'

mkdir "$room/missing" && case_ missing 'refused sheet 19 0 1'

mkdir -p "$room/folder/sheet.hoa" && case_ folder 'refused sheet 19 0 1'

mkdir "$room/no_rule" && printf '%s' "$header" > "$room/no_rule/sheet.hoa"
case_ no_rule 'refused rule 19 0 1'

mkdir "$room/sheet_first" && printf 'HOA:' > "$room/sheet_first/sheet.hoa"
case_ sheet_first 'refused sheet 13 4 2'

mkdir "$room/empty" && : > "$room/empty/sheet.hoa" && : > "$room/empty/rule.hoa"
case_ empty 'refused sheet 13 0 2'

mkdir "$room/empty_rule" && printf '%s' "$header" > "$room/empty_rule/sheet.hoa" && : > "$room/empty_rule/rule.hoa"
case_ empty_rule 'refused rule 13 0 2'

mkdir "$room/binary" && printf '\0\377\1' > "$room/binary/sheet.hoa"
case_ binary 'refused sheet 11 0 1'

mkdir "$room/number" && printf ' 010' > "$room/number/sheet.hoa"
case_ number 'refused sheet 12 1 1'

mkdir "$room/states" && printf 'HOA: v1 States: 65' > "$room/states/sheet.hoa"
case_ states 'refused sheet 14 16 3'

mkdir "$room/signals" && printf '%s' "$header" > "$room/signals/sheet.hoa"
printf '%s' "${header/AP: 0/AP: 1 \"a\"}" > "$room/signals/rule.hoa"
case_ signals 'refused pair 31'

mkdir "$room/names" && printf '%s' "${header/AP: 0/AP: 1 \"b\"}" > "$room/names/sheet.hoa"
printf '%s' "${header/AP: 0/AP: 1 \"a\"}" > "$room/names/rule.hoa"
case_ names 'refused pair 33'

mkdir "$room/sound" && printf '%s' "$header" | tee "$room/sound/sheet.hoa" > "$room/sound/rule.hoa"
case_ sound $'sheet states 0 signals 0 starts 0 good 0 steps 0\nrule states 0 signals 0 starts 0 good 0 steps 0'

mkdir "$room/long" && head -c 61441 /dev/zero | tr '\0' ' ' > "$room/long/sheet.hoa"
case_ long 'refused sheet 18 61440 1'

mkdir "$room/huge" && truncate -s 3G "$room/huge/sheet.hoa"
case_ huge 'refused sheet 18 61440 1'

mkdir "$room/full" && { printf '%s' "$header"; head -c 61378 /dev/zero | tr '\0' ' '; } > "$room/full/sheet.hoa" && printf '"' > "$room/full/rule.hoa"
case_ full 'refused rule 11 0 1'

all_as_expected
