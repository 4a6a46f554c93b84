#!/usr/bin/env python3
"""Writes the table of cases to standard output, the same on every run. README.md says what a line is."""
import re
import sys

CASES = []


def case(name, text, size=0, cells=4096):
    """Adds a case: a name, a text (str in Latin-1, or bytes), the length to pad it to, and how many cells are lent."""
    if isinstance(text, str):
        text = text.encode("latin-1")
    CASES.append((name, cells, size, text))


def escaped(text):
    short = {9: "\\t", 10: "\\n", 13: "\\r", 92: "\\\\"}
    return "".join(short.get(b, chr(b) if 32 <= b < 127 else "\\x%02x" % b) for b in text)


class Chance:
    """Numbers that look random, and are the same on every machine."""

    def __init__(self, begin):
        self.state = begin

    def below(self, n):
        self.state = (self.state * 6364136223846793005 + 1442695040888963407) % 2**64
        return (self.state >> 33) % n

    def pick(self, items):
        return items[self.below(len(items))]


def header(n="1", starts="Start: 0", ap="AP: 0", acc="Acceptance: 1 Inf(0)"):
    return f"HOA: v1 States: {n} {starts} {ap} {acc} --BODY--"


def one(edges, p=2):
    """A text with one state, whose block has these edges."""
    names = " ".join(f'"{c}"' for c in "abcd"[:p])
    return header(ap=f"AP: {p} {names}") + f" State: 0 {edges} --END--"


# ---- The format's own examples, as remembered, and the same cut down to the part that is read.

case("example/gfa-gfb/transitions", """HOA: v1
name: "GFa & GFb"
States: 1
Start: 0
AP: 2 "a" "b"
acc-name: generalized-Buchi 2
Acceptance: 2 Inf(0)&Inf(1)
--BODY--
State: 0
[!0&!1] 0
[0&!1] 0 {0}
[!0&1] 0 {1}
[0&1] 0 {0 1}
--END--
""")
case("example/gfa-gfb/no-name", """HOA: v1
States: 1
Start: 0
AP: 2 "a" "b"
acc-name: generalized-Buchi 2
Acceptance: 2 Inf(0)&Inf(1)
--BODY--
State: 0
[!0&!1] 0
[0&!1] 0 {0}
[!0&1] 0 {1}
[0&1] 0 {0 1}
--END--
""")
case("example/gfa-gfb/no-acc-name", """HOA: v1
States: 1
Start: 0
AP: 2 "a" "b"
Acceptance: 2 Inf(0)&Inf(1)
--BODY--
State: 0
[!0&!1] 0
--END--
""")
case("example/gfa-gfb/states", """HOA: v1
States: 3
Start: 0
AP: 2 "a" "b"
acc-name: Buchi
Acceptance: 1 Inf(0)
--BODY--
State: 0 {0}
[0&1] 0
[!0] 1
[0&!1] 2
State: 1
[0&1] 0
[!0] 1
[0&!1] 2
State: 2
[1] 0
[!1] 2
--END--
""")
case("example/gfa-gfb/edge-mark", """HOA: v1
States: 1
Start: 0
AP: 1 "a"
acc-name: Buchi
Acceptance: 1 Inf(0)
--BODY--
State: 0
[!0] 0
[0] 0 {0}
--END--
""")
case("example/rabin/transitions", """HOA: v1
States: 2
Start: 0
acc-name: Rabin 1
Acceptance: 2 (Fin(0) & Inf(1))
AP: 2 "a" "b"
--BODY--
State: 0 "a U b"   /* An example of named state */
  [0 & !1] 0 {0}
  [1] 1 {0}
State: 1
  [t] 1 {1}
--END--
""")
case("example/a-until-b/read", """HOA: v1
States: 2
Start: 0
AP: 2 "a" "b"
acc-name: Buchi
Acceptance: 1 Inf(0)
--BODY--
State: 0
  [0 & !1] 0
  [1] 1
State: 1 {0}
  [t] 1
--END--
""")
case("example/a-until-b/state-name", """HOA: v1
States: 2
Start: 0
AP: 2 "a" "b"
Acceptance: 1 Inf(0)
--BODY--
State: 0 "a U b"
  [0 & !1] 0
--END--
""")
case("example/a-until-b/comment", """HOA: v1
States: 2
Start: 0
AP: 2 "a" "b"
Acceptance: 1 Inf(0)
--BODY--
State: 0
  [0 & !1] 0 /* stay */
--END--
""")
case("example/rabin/implicit-labels", """HOA: v1
States: 3
Start: 0
acc-name: Rabin 1
Acceptance: 2 (Fin(0) & Inf(1))
AP: 2 "a" "b"
--BODY--
State: 0 "a U b" { 0 }
  2  /* !a  & !b */
  0  /*  a  & !b */
  1  /* !a  &  b */
  1  /*  a  &  b */
State: 1 { 1 }
  1       /* four transitions on one line */
  1 1 1
State: 2 "sink state" { 0 }
  2 2 2 2
--END--
""")
case("example/implicit-labels/read-as-every-letter", """HOA: v1
States: 3
Start: 0
AP: 2 "a" "b"
Acceptance: 1 Inf(0)
--BODY--
State: 0
  2
  0
  1
  1
State: 1 { 0 }
  1
  1 1 1
State: 2
  2 2 2 2
--END--
""")
for what, line in [
    ("name", 'name: "GFa"'), ("tool", 'tool: "ltl2tgba" "1.0"'), ("properties", "properties: trans-labels explicit-labels state-acc"),
    ("alias", "Alias: @a 0"), ("start-and", "Start: 0&1"), ("controllable", "controllable-AP: 0"),
]:
    case(f"example/header/{what}-first", f"HOA: v1\n{line}\nStates: 2\nStart: 0\nAP: 0\nAcceptance: 1 Inf(0)\n--BODY--\n--END--\n")
    case(f"example/header/{what}-behind-states", f"HOA: v1\nStates: 2\n{line}\nAP: 0\nAcceptance: 1 Inf(0)\n--BODY--\n--END--\n")
    case(f"example/header/{what}-last", f"HOA: v1\nStates: 2\nAP: 0\nAcceptance: 1 Inf(0)\n{line}\n--BODY--\n--END--\n")
case("example/states-missing", 'HOA: v1\nStart: 0\nAP: 1 "a"\nAcceptance: 1 Inf(0)\n--BODY--\nState: 0 [t] 0\n--END--\n')
case("example/ap-before-start", 'HOA: v1\nStates: 1\nAP: 1 "a"\nStart: 0\nAcceptance: 1 Inf(0)\n--BODY--\n--END--\n')
case("example/state-label", 'HOA: v1\nStates: 1\nStart: 0\nAP: 1 "a"\nAcceptance: 1 Inf(0)\n--BODY--\nState: [0] 0 {0}\n 0\n--END--\n')
case("example/alternation", 'HOA: v1\nStates: 2\nStart: 0\nAP: 1 "a"\nAcceptance: 1 Inf(0)\n--BODY--\nState: 0\n[0] 0&1\n--END--\n')
case("example/alias-in-label", 'HOA: v1\nStates: 1\nStart: 0\nAP: 1 "a"\nAcceptance: 1 Inf(0)\n--BODY--\nState: 0\n[@a] 0\n--END--\n')
case("example/abort", "HOA: v1\nStates: 1\nAP: 0\nAcceptance: 1 Inf(0)\n--BODY--\nState: 0\n--ABORT--\n")
case("example/acceptance/t", "HOA: v1\nStates: 1\nAP: 0\nAcceptance: 0 t\n--BODY--\n--END--\n")
case("example/acceptance/fin", "HOA: v1\nStates: 1\nAP: 0\nAcceptance: 1 Fin(0)\n--BODY--\n--END--\n")
case("example/acceptance/not", "HOA: v1\nStates: 1\nAP: 0\nAcceptance: 1 Inf(!0)\n--BODY--\n--END--\n")
case("example/acceptance/parenthesis", "HOA: v1\nStates: 1\nAP: 0\nAcceptance: 1 (Inf(0))\n--BODY--\n--END--\n")
case("example/version/v1.1", "HOA: v1.1\nStates: 1\n")
case("example/two-automata", header() + " --END-- " + header() + " --END--")

# ---- How many states, signals and cells.

for n in [0, 1, 2, 63, 64, 65, 66, 100, 9999]:
    case(f"states/{n}", header(n, starts="") + " --END--")
for n in [1, 2, 63, 64]:
    case(f"states/{n}/last", header(n, starts=f"Start: {n - 1}") + f" State: {n - 1} {{0}} {n - 1} {0} --END--")
    case(f"states/{n}/start-above", header(n, starts=f"Start: {n}") + " --END--")
    case(f"states/{n}/block-above", header(n) + f" State: {n} --END--")
    case(f"states/{n}/edge-above", header(n) + f" State: 0 {n} --END--")
    case(f"states/{n}/edge-9999", header(n) + " State: 0 9999 --END--")
case("states/0/start", header(0, starts="Start: 0") + " --END--")
case("states/0/block", header(0, starts="") + " State: 0 --END--")
case("states/64/all-blocks-down", header(64) + " ".join(f" State: {s} {{0}} {(s + 1) % 64}" for s in reversed(range(64))) + " --END--")
case("states/64/all-starts", header(64, starts=" ".join(f"Start: {s}" for s in range(64))) + " --END--")
case("states/64/from-63-to-all", header(64) + " State: 63 " + " ".join(map(str, range(64))) + " --END--")
for p in range(6):
    names = " ".join(f'"{c}"' for c in "abcdef"[:p])
    case(f"signals/{p}", header(ap=f"AP: {p} {names}") + " State: 0 0 --END--")
    for s in range(6):
        case(f"signals/{p}/signal-{s}", header(ap=f"AP: {p} {names}") + f" State: 0 [{s}] 0 --END--")
        case(f"signals/{p}/not-{s}", header(ap=f"AP: {p} {names}") + f" State: 0 [!{s}] 0 --END--")
for p in [6, 64, 65, 9999]:
    case(f"signals/{p}", header(ap=f"AP: {p}") + " --END--")
for p in range(1, 5):
    for given in range(0, 6):
        if given != p:
            names = " ".join(f'"{c}"' for c in "abcdef"[:given])
            case(f"signals/{p}/names-{given}", header(ap=f"AP: {p} {names}") + " --END--")
case("signals/0/one-name", header(ap='AP: 0 "a"') + " --END--")
legal = header() + " State: 0 {0} 0 --END--"
for cells in [0, 1, 4095, 4096, 4097]:
    case(f"cells/{cells}", legal, cells=cells)
    case(f"cells/{cells}/faulty", "$", cells=cells)
    case(f"cells/{cells}/too-long", legal, size=61441, cells=cells)
case("cells/4096/64-states", header(64) + " State: 63 {0} 63 --END--", cells=4096)
case("cells/4095/64-states", header(64) + " State: 63 {0} 63 --END--", cells=4095)

# ---- The text's size.

for size in [61439, 61440, 61441, 61442, 65536]:
    case(f"size/{size}/legal", legal, size=size)
    case(f"size/{size}/empty", "", size=size)
    case(f"size/{size}/faulty", "HOA: v1 States: 65", size=size)
    case(f"size/{size}/cut", header(), size=size)
case("size/61440/behind-end", legal + " ", size=61440)

# ---- Names.

for length in [0, 1, 2, 31, 32, 33, 34, 100]:
    case(f"names/length-{length}", header(ap='AP: 1 "' + "x" * length + '"') + " --END--")
    case(f"names/length-{length}/second", header(ap='AP: 2 "a" "' + "x" * length + '"') + " --END--")
for b in [0, 9, 10, 11, 13, 31, 32, 33, 34, 35, 91, 92, 93, 126, 127, 128, 159, 160, 255]:
    case(f"names/byte-{b}", header(ap='AP: 1 "a' + chr(b) + 'b"') + " --END--")
case("names/every-byte-1", header(ap='AP: 1 "' + "".join(map(chr, [b for b in range(32, 66) if b != 34][:32])) + '"') + " --END--")
case("names/every-byte-2", header(ap='AP: 1 "' + "".join(map(chr, [b for b in range(65, 127) if b != 92][:32])) + '"') + " --END--")
case("names/every-byte-3", header(ap='AP: 1 "' + "".join(map(chr, [b for b in range(97, 127) if b != 92])) + '"') + " --END--")
case("names/escaped-quote", header(ap='AP: 1 "a\\"b"') + " --END--")
case("names/utf8", header(ap='AP: 1 "a\xc3\xbc"') + " --END--")
case("names/open", 'HOA: v1 States: 0 AP: 1 "abc')
case("names/open-quote-only", 'HOA: v1 States: 0 AP: 1 "')
case("names/open-32", 'HOA: v1 States: 0 AP: 1 "' + "x" * 32)
case("names/three-quotes", header(ap='AP: 1 "a""') + " --END--")
case("names/two-close", header(ap='AP: 2 "a""b"') + " --END--")
case("names/single-quotes", header(ap="AP: 1 'a'") + " --END--")
case("names/bare", header(ap="AP: 1 a") + " --END--")
case("names/blank", header(ap='AP: 1 " "') + " --END--")
case("names/alike", header(ap='AP: 2 "a" "a"') + " --END--")
case("names/alike-third", header(ap='AP: 3 "a" "b" "a"') + " --END--")
case("names/alike-fourth", header(ap='AP: 4 "a" "b" "c" "b"') + " --END--")
case("names/alike-then-bad-byte", header(ap='AP: 2 "a" "a" $') + " --END--")
case("names/alike-and-too-many", header(ap='AP: 1 "a" "a"') + " --END--")
case("names/not-alike-case", header(ap='AP: 2 "a" "A"') + " --END--")
case("names/not-alike-blank", header(ap='AP: 2 "a" "a "') + " --END--")
case("names/not-alike-prefix", header(ap='AP: 2 "ab" "a"') + " --END--")
case("names/alike-32", header(ap='AP: 2 "' + "y" * 32 + '" "' + "y" * 32 + '"') + " --END--")
case("names/32-differ-at-end", header(ap='AP: 2 "' + "y" * 32 + '" "' + "y" * 31 + 'z"') + " --END--")
for where, text in [("first", '"a" HOA: v1'), ("version", 'HOA: "v1"'), ("states", 'HOA: v1 States: "3"'), ("edge", one('"a"')), ("label", one('["a"] 0')), ("bad-as-label", one('[""] 0'))]:
    case(f"names/misplaced/{where}", text)

# ---- Numbers.

for digits in ["0", "00", "01", "000", "007", "1", "10", "64", "65", "064", "0064", "99", "999", "9999", "09999", "10000", "10001", "99999",
               "4294967295", "4294967296", "18446744073709551615", "18446744073709551616", "9" * 100]:
    case(f"numbers/states/{digits}", f"HOA: v1 States: {digits} AP: 0 Acceptance: 1 Inf(0) --BODY-- --END--")
    case(f"numbers/start/{digits}", header(2, starts=f"Start: {digits}") + " --END--")
    case(f"numbers/signals/{digits}", header(ap=f"AP: {digits}") + " --END--")
    case(f"numbers/block/{digits}", header(2) + f" State: {digits} --END--")
    case(f"numbers/edge/{digits}", header(2) + f" State: 0 {digits} --END--")
    case(f"numbers/label/{digits}", one(f"[{digits}] 0"))
    case(f"numbers/acceptance/{digits}", header(acc=f"Acceptance: {digits} Inf(0)") + " --END--")
    case(f"numbers/inf/{digits}", header(acc=f"Acceptance: 1 Inf({digits})") + " --END--")
    case(f"numbers/good/{digits}", header() + f" State: 0 {{{digits}}} --END--")
    case(f"numbers/misplaced-first/{digits}", f"{digits} HOA: v1")
    case(f"numbers/misplaced-version/{digits}", f"HOA: {digits}")
for text in ["-1", "+1", "1.0", "0x1", "1e1", "1,0", "1_0", "\xb2"]:
    case(f"numbers/forms/{text}" if text.isascii() else "numbers/forms/superscript", f"HOA: v1 States: {text} AP: 0")

# ---- Bytes.

for b in range(256):
    case(f"bytes/first/{b}", bytes([b]))
for b in list(range(0, 34)) + [34, 35, 36, 37, 39, 42, 43, 44, 46, 47, 58, 59, 60, 61, 62, 63, 64, 92, 94, 95, 96, 124, 126, 127, 128, 160, 194, 239, 255]:
    case(f"bytes/between/{b}", b"HOA: v1" + bytes([b]) + b"States: 0 AP: 0 Acceptance: 1 Inf(0) --BODY-- --END--")
    case(f"bytes/behind-end/{b}", b"HOA: v1 States: 0 AP: 0 Acceptance: 1 Inf(0) --BODY-- --END--" + bytes([b]))
for what, blank in [("space", " "), ("tab", "\t"), ("lf", "\n"), ("cr", "\r"), ("crlf", "\r\n"), ("mixed", " \t\r\n ")]:
    case(f"bytes/blanks/{what}", (legal + " ").replace(" ", blank))
    case(f"bytes/blanks/only-{what}", blank)
    case(f"bytes/blanks/before-{what}", blank + legal)
case("bytes/utf8-mark", "\xef\xbb\xbf" + legal)
case("bytes/nul-behind", legal + "\0")

# ---- Words and where tokens run together.

for what, text in [
    ("two-colons", "HOA:: v1"), ("colon-apart", "HOA : v1"), ("no-colon", "HOA v1"), ("colon-first", ":HOA v1"), ("lower", "hoa: v1"),
    ("hyphen", "-HOA: v1"), ("underscore", "H_OA: v1"), ("digit-inside", "HO4A: v1"), ("v2", "HOA: v2"), ("v1-colon", "HOA: v1: States: 0"),
    ("v10", "HOA: v10 States: 0"), ("v-apart", "HOA: v 1 States: 0"), ("V1", "HOA: V1 States: 0"), ("run-together", "HOA:v1States:0"),
    ("hoa-v1-together", "HOA:v1 States:0 AP:0 Acceptance:1 Inf(0) --BODY-- --END--"),
    ("states-no-colon", "HOA: v1 States 0"), ("state-for-states", "HOA: v1 State: 0"), ("v1States", "HOA: v1States: 0"),
    ("number-then-word", "HOA: v1 States:3Start:0AP:0Acceptance:1Inf(0)--BODY-- --END--"),
    ("number-then-x", "HOA: v1 States: 3x"), ("65x", "HOA: v1 States: 65x"), ("007x", "HOA: v1 States: 007x"), ("0x", "HOA: v1 States: 0x"),
    ("body-together", "HOA: v1 States: 1 AP: 0 Acceptance: 1 Inf(0)--BODY--State: 0 --END--"),
    ("body-end-together", "HOA: v1 States: 1 AP: 0 Acceptance: 1 Inf(0)--BODY----END--"),
    ("body-mark-end", "HOA: v1 States: 1 AP: 0 Acceptance: 1 Inf(0)--BODY--\n--END--"),
    ("end-colon", "HOA: v1 States: 1 AP: 0 Acceptance: 1 Inf(0) --BODY-- --END--:"),
    ("end-short", "HOA: v1 States: 1 AP: 0 Acceptance: 1 Inf(0) --BODY-- --END-"),
    ("end-long", "HOA: v1 States: 1 AP: 0 Acceptance: 1 Inf(0) --BODY-- --END---"),
    ("body-lower", "HOA: v1 States: 1 AP: 0 Acceptance: 1 Inf(0) --body-- --END--"),
    ("tightest", 'HOA:v1 States:2Start:0Start:1AP:1"a"acc-name:Buchi Acceptance:1Inf(0)--BODY-- State:0{0}[0]1[!0]0State:1[t]0--END--'),
    ("name-then-word", 'HOA: v1 States: 1 AP: 1"a"Acceptance: 1 Inf(0) --BODY-- --END--'),
    ("one-hyphen", "-"), ("hyphens", "----"), ("hyphen-digits", "-12:"), ("word-long", "A" * 500), ("word-long-colon", "A" * 500 + "::"),
]:
    case(f"words/{what}", text)
for what, text in [("t-colon", "t:"), ("f-colon", "f:"), ("T", "T"), ("F", "F"), ("true", "true"), ("tt", "tt"), ("t-hyphen", "t-"), ("t0", "t0"), ("0t", "0t"), ("f0", "f0"), ("word", "Inf")]:
    case(f"words/label/{what}", one(f"[{text}] 0"))

# ---- The header.

whole = 'HOA: v1 States: 2 Start: 0 Start: 1 AP: 2 "a" "b" acc-name: Buchi Acceptance: 1 Inf ( 0 ) --BODY-- State: 1 {0} [0&!1] 0 1 State: 0 --END--'
case("header/whole", whole)
case("header/start-twice", header(2, starts="Start: 1 Start: 1") + " --END--")
case("header/start-thrice", header(3, starts="Start: 1 Start: 2 Start: 1") + " --END--")
case("header/no-start", header(2, starts="") + " State: 0 1 --END--")
case("header/start-two-numbers", header(2, starts="Start: 0 1") + " --END--")
case("header/start-none", header(2, starts="Start:") + " --END--")
case("header/start-behind-ap", "HOA: v1 States: 2 AP: 0 Start: 0 Acceptance: 1 Inf(0) --BODY-- --END--")
case("header/states-twice", "HOA: v1 States: 2 States: 2 AP: 0")
case("header/ap-twice", "HOA: v1 States: 2 AP: 0 AP: 0")
case("header/hoa-twice", "HOA: v1 HOA: v1")
case("header/no-ap", "HOA: v1 States: 2 Acceptance: 1 Inf(0) --BODY-- --END--")
case("header/no-acceptance", "HOA: v1 States: 2 AP: 0 --BODY-- --END--")
case("header/no-body", "HOA: v1 States: 2 AP: 0 Acceptance: 1 Inf(0) --END--")
case("header/no-end", "HOA: v1 States: 2 AP: 0 Acceptance: 1 Inf(0) --BODY--")
case("header/acc-name/none", header() + " --END--")
case("header/acc-name/here", "HOA: v1 States: 2 AP: 0 acc-name: Buchi Acceptance: 1 Inf(0) --BODY-- --END--")
case("header/acc-name/behind", "HOA: v1 States: 2 AP: 0 Acceptance: 1 Inf(0) acc-name: Buchi --BODY-- --END--")
case("header/acc-name/before-ap", "HOA: v1 States: 2 acc-name: Buchi AP: 0 Acceptance: 1 Inf(0) --BODY-- --END--")
case("header/acc-name/before-names", 'HOA: v1 States: 2 AP: 1 acc-name: Buchi "a" Acceptance: 1 Inf(0) --BODY-- --END--')
case("header/acc-name/before-states", "HOA: v1 acc-name: Buchi States: 2 AP: 0")
case("header/acc-name/in-body", header() + " acc-name: Buchi --END--")
case("header/acc-name/twice", "HOA: v1 States: 2 AP: 0 acc-name: Buchi acc-name: Buchi Acceptance: 1 Inf(0) --BODY-- --END--")
for what in ["buchi", "BUCHI", "Buchi:", "co-Buchi", "generalized-Buchi", "all", "Rabin", "B\xfcchi", "1", '"Buchi"', ""]:
    case("header/acc-name/value/" + (what.strip('":') if what.isascii() else "umlaut") + ("-colon" if ":" in what else "-quoted" if '"' in what else "-empty" if not what else ""),
         f"HOA: v1 States: 2 AP: 0 acc-name: {what} Acceptance: 1 Inf(0) --BODY-- --END--")
for what, acc in [
    ("two", "Acceptance: 2 Inf(0)"), ("zero", "Acceptance: 0 Inf(0)"), ("two-inf", "Acceptance: 2 Inf(0)&Inf(1)"), ("inf-1", "Acceptance: 1 Inf(1)"),
    ("inf-blanks", "Acceptance: 1 Inf ( 0 )"), ("inf-lines", "Acceptance:\n1\nInf\n(\n0\n)\n"), ("fin", "Acceptance: 1 Fin(0)"), ("inf-colon", "Acceptance: 1 Inf:(0)"),
    ("inf-open", "Acceptance: 1 Inf(0"), ("inf-no-open", "Acceptance: 1 Inf 0)"), ("inf-empty", "Acceptance: 1 Inf()"), ("inf-square", "Acceptance: 1 Inf[0]"),
    ("inf-not", "Acceptance: 1 !Inf(0)"), ("inf-or", "Acceptance: 1 Inf(0)|Inf(0)"), ("inf-lower", "Acceptance: 1 inf(0)"), ("inf-00", "Acceptance: 1 Inf(00)"),
    ("t", "Acceptance: 1 t"), ("none", "Acceptance: 1"), ("twice", "Acceptance: 1 Inf(0) Acceptance: 1 Inf(0)"), ("one-word", "Acceptance:1Inf(0)"), ("inf1", "Acceptance: 1 Inf1(0)"),
]:
    case(f"header/acceptance/{what}", header(acc=acc) + " --END--")

# ---- Blocks and edges.

three = header(3)
for what, body in [
    ("none", ""), ("empty-blocks", "State: 0 State: 1 State: 2"), ("down", "State: 2 {0} 0 State: 1 1 State: 0 2"), ("one-missing", "State: 0 1 State: 2 {0} 1"),
    ("twice", "State: 1 State: 1"), ("twice-apart", "State: 1 0 State: 0 1 State: 1 2"), ("twice-good", "State: 1 {0} State: 1"), ("thrice", "State: 1 State: 1 State: 1"),
    ("twice-then-bad-byte", "State: 1 State: 1 $"), ("above-then-twice", "State: 3 State: 3"), ("no-number", "State: State: 0"), ("no-state", "0 State: 0"),
    ("good", "State: 0 {0} State: 1 {0} State: 2 {0}"), ("good-blanks", "State: 0 {\n0\t}"), ("good-1", "State: 0 {1}"), ("good-00", "State: 0 {00}"), ("good-twice", "State: 0 {0} {0}"),
    ("good-0-0", "State: 0 {0 0}"), ("good-empty", "State: 0 {}"), ("good-open", "State: 0 {0"), ("good-t", "State: 0 {t}"), ("good-behind-edge", "State: 0 1 {0}"),
    ("good-before", "State: {0} 0"), ("edge", "State: 0 0 1 2"), ("edge-twice", "State: 0 1 1 1"), ("edge-above", "State: 0 1 3"), ("edge-label-only", "State: 0 [t]"),
    ("edge-label-twice", "State: 0 [t] [t] 1"), ("edge-label-behind", "State: 0 1 [t]"), ("edge-t", "State: 0 [t] t"), ("edge-t-alone", "State: 0 t"), ("edge-not", "State: 0 !1"),
    ("edge-parenthesis", "State: 0 (1)"), ("edge-empty-label", "State: 0 [] 1"), ("edge-open-label", "State: 0 [t 1"), ("edge-close-label", "State: 0 t] 1"), ("edge-and", "State: 0 0&1"),
    ("edge-above-in-missing-block", "State: 3 9"), ("inner-body", "State: 0 --BODY-- State: 1"), ("end-twice", "State: 0 --END--"), ("state-word", "State: 0 State 1"), ("states-word", "States: 3"),
    ("f-9", "State: 0 [f] 9"), ("f-9-signal", "State: 0 [f&9] 1"), ("f-above", "State: 0 [f] 3"), ("f-1", "State: 0 [f] 1"), ("t-1", "State: 0 [t] 1"), ("not-f", "State: 0 [!f] 1"), ("not-t", "State: 0 [!t] 1"),
]:
    case(f"body/{what}", f"{three} {body} --END--")

# ---- Labels.

for p in range(5):
    for what, label in [
        ("t", "t"), ("f", "f"), ("not-t", "!t"), ("not-f", "!f"), ("t-and-f", "t&f"), ("t-or-f", "t|f"), ("f-or-f-and-t", "f|f&t"), ("t-or-t-and-f", "t|t&f"), ("t-and-f-or-t", "t&f|t"),
        ("parenthesis", "(t|t)&f"), ("not-parenthesis", "!(t|f)"), ("not-not", "!!t"), ("not-and", "!t&f"), ("not-or", "!f|f"), ("blanks", " ( t | f ) & ! f "),
    ]:
        case(f"labels/p{p}/{what}", one(f"[{label}] 0", p))
formulas = [
    "0", "1", "2", "3", "!0", "!1", "!2", "!3", "0&1", "0|1", "!0&1", "0&!1", "!0&!1", "!0|!1", "!(0&1)", "!(0|1)", "0|1&!0", "(0|1)&!0", "0&1|2", "0|1&2", "(0|1)&2", "0&(1|2)", "0&1&2",
    "0|1|2", "!0&!1&!2&!3", "0&1&2&3", "0|1|2|3", "0&1|2&3", "(0|1)&(2|3)", "0|1&2|3", "!(0&1|2&3)", "0&!1|!0&1", "(0&!1|!0&1)&!2|!(0&!1|!0&1)&2", "0&0", "0|0", "0&!0", "0|!0", "!!0", "!!!0",
    "((((0))))", "!(!(!(0)))", "!0&!0|0&0", "t&0", "f|0", "t|0", "f&0", "0&t&1|f", "(t)", "(f)", "(0)&(1)", "!(0)&(1)", "!((0)|(1))",
]
for formula in formulas:
    highest = max([int(d) for d in re.findall(r"\d", formula)], default=-1)
    for p in range(max(highest, 0), 5):
        case(f"labels/p{p}/{formula}", one(f"[{formula}] 0", p))
for what, label in [
    ("empty", ""), ("blank", " "), ("and-first", "&0"), ("and-last", "0&"), ("or-first", "|0"), ("or-last", "0|"), ("two-ands", "0&&1"), ("two-ors", "0||1"), ("and-or", "0&|1"), ("two-numbers", "0 1"), ("t-t", "t t"),
    ("not-last", "0!"), ("not-alone", "!"), ("not-and", "!&0"), ("not-close", "(!)"), ("open", "(0"), ("close", "0)"), ("both", "()"), ("empty-inside", "0&()"), ("close-first", ")0("), ("open-number", "(0)1"), ("number-open", "0(1)"),
    ("square", "[0]"), ("curly", "{0}"), ("name", '"a"'), ("word", "a"), ("upper", "T"), ("at", "@a"), ("comma", "0,1"), ("star", "0*1"), ("tilde", "~0"), ("arrow", "0->1"), ("xor", "0^1"), ("double-and", "0 && 1"), ("end", "0 --END--"),
    ("state", "0 State: 1"), ("above", "2"), ("above-later", "0&2"), ("above-first", "2&9"), ("f-and-9", "f&9"), ("f-and-not-9", "f&!9"), ("t-or-9", "t|9"), ("9999", "9999"), ("10000", "10000"), ("00", "00"), ("0-and-00", "0&00"), ("9-then-bad", "9$"), ("9-then-close", "9)"),
]:
    case(f"labels/faults/{what}", one(f"[{label}] 0"))
for deep in [1, 2, 15, 16, 17, 18, 40]:
    case(f"labels/deep/parentheses-{deep}", one("[" + "(" * deep + "0" + ")" * deep + "] 0"))
    case(f"labels/deep/nots-{deep}", one("[" + "!" * deep + "0] 0"))
    case(f"labels/deep/mixed-{deep}", one("[" + "".join("!("[i % 2] for i in range(deep)) + "0" + ")" * (deep // 2) + "] 0"))
    case(f"labels/deep/mixed-other-{deep}", one("[" + "".join("(!"[i % 2] for i in range(deep)) + "0" + ")" * ((deep + 1) // 2) + "] 0"))
    case(f"labels/deep/unclosed-{deep}", one("[" + "(" * deep + "0] 0"))
    case(f"labels/deep/cut-{deep}", one("[" + "(" * deep).split(" --END--")[0])
    case(f"labels/deep/then-bad-byte-{deep}", one("[" + "(" * deep + "$] 0"))
    case(f"labels/deep/then-and-{deep}", one("[" + "!" * deep + "&] 0"))
    case(f"labels/deep/siblings-{deep}", one("[" + "(" * deep + "0" + ")" * deep + "&" + "(" * deep + "1" + ")" * deep + "] 0"))
    case(f"labels/deep/not-siblings-{deep}", one("[" + "!" * deep + "0|" + "!" * deep + "1] 0"))
    case(f"labels/deep/next-edge-{deep}", one("[" + "!" * deep + "0] 0 [" + "!" * deep + "1] 0"))
case("labels/deep/closed-between-15+2", one("[" + "(" * 15 + "(0)&(1)" + ")" * 15 + "] 0"))
case("labels/deep/closed-between-16+1", one("[" + "(" * 16 + "0&(1)" + ")" * 16 + "] 0"))
case("labels/deep/nots-end-with-factor", one("[" + "(" * 14 + "!!0&!!1|!(0)" + ")" * 14 + "] 0"))
case("labels/deep/not-parenthesis-ends", one("[" + "(" * 14 + "!(0)&!(1)" + ")" * 14 + "] 0"))
case("labels/deep/not-parenthesis-one-more", one("[" + "(" * 14 + "!(0)&!((1))" + ")" * 14 + "] 0"))
case("labels/deep/many-nots-in-row", one("[" + "&".join(["!0"] * 40) + "] 0"))
case("labels/deep/many-parentheses-in-row", one("[" + "|".join(["(0&!1)"] * 40) + "] 0"))
case("labels/deep/inf-does-not-count", one("[" + "(" * 16 + "t" + ")" * 16 + "] 0", 0))
case("labels/deep/17-not-allowed-there", one("[" + "(" * 16 + "0(" + "] 0"))
case("labels/deep/17-not-allowed-there-not", one("[" + "!" * 16 + "0!" + "] 0"))
case("labels/long/and", one("[" + "&".join(["0"] * 300) + "] 0"))
case("labels/long/or", one("[" + "|".join(["0&1", "!0"] * 100) + "] 0"))
case("labels/long/alternate", one("[" + "0&1|" * 150 + "f] 0"))

# ---- One fault before another.

for what, text in [
    ("14-then-11", "HOA: v1 States: 65 $"), ("14-then-12", "HOA: v1 States: 65 007"), ("14-then-13", "HOA: v1 States: 65 HOA:"), ("14-at-end", "HOA: v1 States: 65"), ("14-touching-11", "HOA: v1 States: 65$"),
    ("12-before-14", "HOA: v1 States: 065"), ("12-before-13", "007"), ("12-before-15", header(2, starts="Start: 02")), ("12-for-size", "HOA: v1 States: 10000"), ("11-before-13", "$ HOA:"), ("13-before-11", "v1 $"), ("13-touching-11", "HOA: HOA$"),
    ("13-before-12", "v1 007"), ("15-before-11", "HOA: v1 States: 2 Start: 2 $"), ("15-touching-11", "HOA: v1 States: 2 Start: 2$"), ("15-before-13", "HOA: v1 States: 2 Start: 2 2"), ("15-at-end", "HOA: v1 States: 2 Start: 2"),
    ("14-signals-then-11", "HOA: v1 States: 2 AP: 5 $"), ("14-signals-then-names", 'HOA: v1 States: 2 AP: 5 "a" "a"'), ("14-signals-then-bad-name", 'HOA: v1 States: 2 AP: 5 "'), ("16-name-then-bad-name", 'HOA: v1 States: 2 AP: 3 "a" "a" "'),
    ("11-name-before-16", 'HOA: v1 States: 2 AP: 3 "a" "" "a"'), ("16-then-11", three + " State: 0 State: 0$"), ("15-then-16", three + " State: 3 State: 3"), ("17-then-11", one("[" + "!" * 17 + "$")), ("17-then-15", one("[" + "!" * 17 + "9] 0")),
    ("15-then-17", one("[9&" + "!" * 17 + "0] 0")), ("13-then-17", one("[0 " + "!" * 17 + "0] 0")), ("15-label-then-15-edge", one("[9] 9")), ("15-edge-then-13", one("9 {0}")),
    ("11-behind-end", legal + " $"), ("12-behind-end", legal + " 007"), ("13-behind-end", legal + " HOA:"), ("13-number-behind-end", legal + " 7"), ("13-name-behind-end", legal + ' "a"'), ("11-bad-name-behind-end", legal + ' "'), ("end-twice", legal + " --END--"),
    ("11-touching-end", legal + "$"), ("12-touching-end", legal + "007"), ("13-touching-end", legal + "7"), ("11-deep-in-blanks", legal + " " * 50 + "\x0b"), ("blanks-behind-end", legal + " \t\r\n" * 10),
]:
    case(f"order/{what}", text)

# ---- Texts that end too early.

PIECES = re.compile(rb'[A-Za-z-][A-Za-z0-9-]*:?|[0-9]+|"[^"]*"|[^ \t\r\n]')


def cuts(text):
    """The text in pieces: where each begins and ends. It serves to take texts apart, and answers nothing."""
    return [m.span() for m in PIECES.finditer(text)]


first = (b'HOA: v1\nStates: 3\nStart: 0\nStart: 2\nAP: 2 "meas" "grind"\nacc-name: Buchi\nAcceptance: 1 Inf(0)\n--BODY--\nState: 0 {0}\n  [!0&1] 1\n  [t] 0\nState: 2\n'
         b'  [(0|!(1&0))&!!1] 2\n  1 0\nState: 1\n--END--\n')
second = (b'HOA:v1 States:4AP:4"a""b""c""d"Acceptance:1Inf(0)--BODY-- State:3{0}[0&1&2&3|!0&!1&!2&!3]0[f]1 2State:0[!(0|1)&(2|!3)]3[t|f&0]0State:1{0}[((0))]1--END--')
for label, text in [("first", first), ("second", second)]:
    case(f"cut/{label}/whole", text)
    for i, (begin, end) in enumerate(cuts(text)):
        case(f"cut/{label}/before-{i}", text[:begin])
        case(f"cut/{label}/behind-{i}", text[:end])
        case(f"cut/{label}/without-{i}", text[:begin] + b" " + text[end:])
        case(f"cut/{label}/twice-{i}", text[:end] + b" " + text[begin:])
        case(f"cut/{label}/bad-byte-{i}", text[:begin] + b"$" + text[end:])
        case(f"cut/{label}/bad-number-{i}", text[:begin] + b" 01 " + text[end:])
short = b'HOA: v1 States:2Start: 1 AP: 1 "ab" acc-name: Buchi Acceptance: 1 Inf(0) --BODY-- State: 1 {0} [!0|t] 0 --END-- '
for i in range(len(short) + 1):
    case(f"cut/bytes/{i}", short[:i])

# ---- Random texts, and the same with random changes.

chance = Chance(40961)
BLANKS = [" ", " ", " ", "\n", "\n", "\t", "\r\n", "  "]


def random_label(p, deep):
    kind = chance.below(9)
    if deep == 0 or kind < 3:
        return [str(chance.below(p))] if p and chance.below(6) else [chance.pick(["t", "f"])]
    if kind < 5:
        return ["!"] + random_factor(p, deep - 1)
    sign = chance.pick(["&", "|"])
    parts = random_label(p, deep - 1)
    for _ in range(1 + chance.below(2)):
        parts = parts + [sign] + random_label(p, deep - 1)
    return parts


def random_factor(p, deep):
    label = random_label(p, deep)
    return label if len(label) == 1 or label[0] == "!" and len(label) == 2 else ["("] + label + [")"]


def random_document():
    """The tokens of a document that is read."""
    n = chance.pick([0, 1, 1, 2, 2, 3, 3, 4, 5, 6, 8, 12, 64])
    p = chance.below(5)
    tokens = ["HOA:", "v1", "States:", str(n)]
    for _ in range(chance.below(4) if n else 0):
        tokens += ["Start:", str(chance.below(n))]
    tokens += ["AP:", str(p)]
    for i in range(p):
        tokens.append('"' + "".join(chance.pick("abcxyz019 !#[]{}()&|~_-:") for _ in range(chance.below(6))) + str(i) + '"')
    if chance.below(2):
        tokens += ["acc-name:", "Buchi"]
    tokens += ["Acceptance:", "1", "Inf", "(", "0", ")", "--BODY--"]
    left = list(range(n))
    for _ in range(chance.below(min(n, 6) + 1)):
        s = left.pop(chance.below(len(left)))
        tokens += ["State:", str(s)]
        if chance.below(3) == 0:
            tokens += ["{", "0", "}"]
        for _ in range(chance.below(4)):
            if chance.below(4):
                tokens += ["["] + random_label(p, chance.below(4)) + ["]"]
            tokens.append(str(chance.below(n)))
    return tokens + ["--END--"]


def joins(a, b):
    """Whether two tokens would run together."""
    return re.fullmatch(r"[A-Za-z0-9-].*|.*[:]", b[0]) and re.search(r"[A-Za-z0-9-]$", a) and not (re.fullmatch(r"[0-9]+", a) and not b[0].isdigit())


def spelled(tokens, tight):
    text = ""
    for i, t in enumerate(tokens):
        if i and (not tight or joins(tokens[i - 1], t) or chance.below(5) == 0):
            text += chance.pick(BLANKS)
        text += t
    return text + chance.pick(["", "", "\n", " \n\t"])


POOL = ["HOA:", "v1", "States:", "Start:", "AP:", "acc-name:", "Buchi", "Acceptance:", "Inf", "--BODY--", "--END--", "State:", "t", "f", "0", "1", "2", "3", "4", "5", "63", "64", "65", "9999",
        "10000", "00", '"a"', '"b"', '""', "[", "]", "{", "}", "(", ")", "!", "&", "|", "x", "t:", "$", "@", "/*", "!!!!!!!!!!!!!!!!!", "((((((((((((((((("]


def changed(tokens):
    tokens = list(tokens)
    for _ in range(1 + chance.below(2)):
        i = chance.below(len(tokens))
        kind = chance.below(5)
        if kind == 0 and len(tokens) > 1:
            del tokens[i]
        elif kind == 1:
            tokens.insert(i, tokens[i])
        elif kind == 2:
            j = chance.below(len(tokens))
            tokens[i], tokens[j] = tokens[j], tokens[i]
        elif kind == 3:
            tokens[i] = chance.pick(POOL)
        else:
            tokens.insert(i, chance.pick(POOL))
    return tokens


def struck(text):
    data = bytearray(text.encode("latin-1"))
    for _ in range(1 + chance.below(2)):
        i = chance.below(len(data))
        kind = chance.below(3)
        if kind == 0:
            data[i] = chance.below(256) if chance.below(2) else ord(chance.pick(" \n\"0123456789tf[]{}()!&|:-aA"))
        elif kind == 1 and len(data) > 1:
            del data[i]
        else:
            data.insert(i, data[i])
    return bytes(data)


for i in range(100):
    tokens = random_document()
    case(f"random/{i}/legal", spelled(tokens, chance.below(2)))
    case(f"random/{i}/tokens-changed", spelled(changed(tokens), chance.below(2)))
    case(f"random/{i}/token-changed-again", spelled(changed(tokens), chance.below(2)))
    case(f"random/{i}/bytes-changed", struck(spelled(tokens, chance.below(2))))

names = [c[0] for c in CASES]
assert len(set(names)) == len(names), [x for x in names if names.count(x) > 1]
assert all(re.fullmatch(r"[!-~]+", x) for x in names), [x for x in names if not re.fullmatch(r"[!-~]+", x)]
for name, cells, size, text in CASES:
    sys.stdout.write(f"{name} {cells} {size} {escaped(text)}\n")
