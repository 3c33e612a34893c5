#!/usr/bin/env bash
# Renders each example by ./mj, with the JSON file, the names and the other templates that it has (.json, .names, .others), and compares the
# output with its .expected file. Each row that command reads must hold. The code in README.md and in docs/LIBRARY.md must be that of their
# tests. No nesting may take more of the stack than bench/stack says.
set -euo pipefail
cd "$(dirname "${BASH_SOURCE[0]}")"

# compare_code DOCUMENT TEST..: the rust blocks of the document, in order, must be the marked parts of the tests' files, but for blanks and
# what only lets one of these files use another. Where a test is of any objects, `P: Parties`, which is cheaper to prove, the document has
# the same of objects in boxes.
compare_code() {
    local document=$1 shown tested
    shift
    shown=$(sed -n '/^```rust$/,/^```$/p' "../$document" | sed '/^```/d' | tr -d '[:space:]' | sed 's/,)/)/g')
    tested=$(cat "${@/#/../crates/}" | sed -n '/example begins here/,/example ends here/p' \
        | sed '/example begins here/d; /example ends here/d; s/^pub(crate) //' | tr -d '[:space:]' \
        | sed -E "s/<P:Parties>//g; s/,P:Parties>/>/g; s/(Environment|Template|State)Of<('\w+(,'_)*),P>/\1<\2>/g; s/CapturedOf<State<'_>>/Captured<'_>/g; s/,(\))/\1/g")
    if [[ -z $shown || $shown != "$tested" ]]; then
        echo "the code in $document isn't that of $*" >&2
        exit 1
    fi
}

compare_code README.md render_tests/src/readme.rt
compare_code docs/LIBRARY.md library_tests/src/library.rt library_tests/src/library_parts.rt

passed=0
failed=0
for input in hello.txt mail.txt server.conf page.html notice.txt table.html menu.html about.html shop.html letter.txt parcel.txt; do
    base=${input%.*}
    words=()
    if [[ -f $base.json ]]; then
        words+=(--json "$base.json")
    fi
    if [[ -f $base.names ]]; then
        while IFS= read -r line; do
            words+=(-D "$line")
        done <"$base.names"
    fi
    words+=("$input")
    if [[ -f $base.others ]]; then
        while IFS= read -r line; do
            words+=("$line")
        done <"$base.others"
    fi
    if ../mj "${words[@]}" | cmp - "$base.expected"; then
        passed=$((passed + 1))
    else
        echo "$input: failed" >&2
        failed=$((failed + 1))
    fi
done
./command ../crates/mj/out/mj || failed=$((failed + 1))
if ! nestings=$(../bench/stack); then
    echo "$nestings" >&2
    failed=$((failed + 1))
fi
echo "examples: $passed rendered as expected, $failed not"
((failed == 0))
