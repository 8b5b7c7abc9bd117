#!/usr/bin/env bash
# Lists the lines of src/ that each point of docs/DESIGN-PASS.md is read off: tools/places.sh POINT, at the top of the repository.
set -euo pipefail
cd "$(dirname "$0")/.."
src() { grep -rnE "$1" crates/*/src --include=*.rt || true; }
case "${1:?a point from 1 to 8}" in
    1) src '\bbool\b|Result<Result<|fn (number|code|numbers|line_check)\(|\.number\(\) ==|^(pub |pub\(crate\) )?enum ' ;;
    2) src '^ *(pub |pub\(crate\) )?(extern "C" )?fn ' ;;
    3) src 'for \w+ in 0\.\.|\.enumerate\(\)|\bwhile ' ;;
    4) src 'fn (same_\w+|opposite|good|better_of|letter|number|code|numbers|book_number|lot_\w+|write_\w+|product|side|duration|event|refill)\b' ;;
    5) src '^ *requires |^ *ensures\*? .*(capacity|few|small|positive|room|bounded)' ;;
    6) src '\[\w+(::\w+\(\))?; ?\w+\]|: Vec<|count: (usize|u32)' ;;
    7) src 'enum (BandTest|Withdrawal)|names_options|\bif \w+\(.*\) \{$' ;;
    8) for c in crates/*/; do
           [ -d "$c/proofs" ] || continue
           answers=$(find "$c/proofs" -name Answers.antt -exec cat {} + | grep -cE '^pub ' || true)
           lines=$(find "$c/proofs" -name '*.antt' -exec cat {} + | wc -l)
           echo "$(basename "$c"): $answers answers, $lines lines in proofs/"
       done ;;
esac
