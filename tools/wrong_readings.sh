#!/usr/bin/env bash
# tools/wrong_readings.sh: shows that named tests tell wrong readings of document 01, and of order 1, from the right one. Each is put into the
# code of a copy, unproved, and the programs named with it are run there by `rt try`: what one writes must be its `stdout`, but that the
# tests named, three or more, say 'differs', these and no other. (The copy has no published cases and none of the recorded models: few of these show there.)
# The last line counts the readings that were told; the exit code is 1 if one was not.
set -euo pipefail
cd "$(dirname "${BASH_SOURCE[0]}")/.."
top=$PWD
copy=$(mktemp -d)
trap 'rm -rf "$copy"' EXIT
cp crates.txt "$copy/"
for crate in crates/*; do
    [ -d "$crate/src" ] || continue
    mkdir -p "$copy/$crate"
    cp -r "$crate/src" "$copy/$crate/"
done
cp -r crates/replay/data "$copy/crates/replay/"
cp -r crates/numbers/data "$copy/crates/numbers/"
find "$copy/crates/replay/data" -type f ! -name pins -delete
cd "$copy"

# edit FILE OLD NEW: puts NEW in the place of OLD, which must stand once in the file
edit() {
    local text behind
    text=$(<"$1")
    behind=${text#*"$2"}
    if [ "$behind" = "$text" ] || [ "${behind#*"$2"}" != "$behind" ]; then
        echo "the old text does not stand once in $1"
        return 1
    fi
    printf '%s\n' "${text%%"$2"*}$3$behind" >"$1"
}

# expect PROGRAM PATTERN..: writes the file expected, the program's `stdout` where tests whose name has one of the patterns differ, and
# says how many
expect() {
    local line name pattern differ=0 program=$1
    shift
    while IFS= read -r line; do
        name=${line% agrees}
        for pattern in "$@"; do
            # shellcheck disable=SC2053
            if [ "$name" != "$line" ] && [[ $name == $pattern ]]; then
                line="$name differs"
                differ=$((differ + 1))
                break
            fi
        done
        case $line in
        *' cases: '*) line='0 cases: 0 outputs and 0 records agree, 0 by either way; 0 faces sought each way' ;;
        *' models: '*) line='0 models: 0 agree, by either way; 0 faces sought each way' ;;
        esac
        echo "$line" >&3
    done <"$top/crates/$program/stdout" 3>expected
    printf '%d of %s, ' "$differ" "$program"
    total=$((total + differ))
}

# try PROGRAM: runs it on its data, unproved; it must write what is expected
try() {
    local file data=()
    for file in "crates/$1/data"/*; do data+=(--data "$(basename "$file")=data/$(basename "$file")"); done
    (cd "crates/$1" && rt try "${data[@]}") </dev/null >written 2>log || { grep -m 1 error log || cat log; return 1; }
    cmp -s written expected || { diff expected written | head -n 4; return 1; }
}

readings=0 told=0

# reading NAME FILE OLD NEW 'PROGRAM PATTERN..'..: the wrong text in a file of crates/, and the tests that tell it
reading() {
    local name=$1 file=crates/$2 old=$3 new=$4 tests words good=1
    shift 4
    readings=$((readings + 1)) total=0
    printf '%s: ' "$name"
    cp "$file" right
    edit "$file" "$old" "$new" || good=0
    for tests in "$@"; do
        read -ra words <<<"$tests"
        expect "${words[@]}"
        try "${words[0]}" || good=0
    done
    cp right "$file"
    [ "$name" = right ] || [ $total -ge 3 ] || good=0
    if [ $good = 1 ]; then
        told=$((told + 1))
        echo "and no other, differ"
    else
        echo "NOT TOLD SO"
    fi
}

meet=bow_tie/src/lib.rt
area=area/src/lib.rt
eps=geometry/src/lib.rt
welding=welding/src/lib.rt
# the words one by one; and with their places: the word at i, which is w, is a separator or stands in a run of one or two words of the one
# cell that a node set has
each_word='for word in words {
        let w = *word;
        if w == mesh::SEPARATOR {'
short_run='for (i, word) in words.iter().enumerate() {
        let w = *word;
        let first = i < 1 || words[i - 1] == mesh::SEPARATOR;
        let second = i < 2 || words[i - 2] == mesh::SEPARATOR;
        let last = i + 1 >= words.len() || words[i + 1] == mesh::SEPARATOR;
        let next = i + 2 >= words.len() || words[i + 2] == mesh::SEPARATOR;
        if w == mesh::SEPARATOR || first && (last || next) || second && last {'

# nothing wrong, so nothing differs
reading right $meet 'const TINY: f64 = 1e-12;' 'const TINY: f64 = 1e-12;' 'replay' 'numbers'
# the slack of parallel edges is eps, or eps by the squared length, not eps by the edge's length; < for ≤ at either end
slack='geometry::size(geometry::difference(b, a))'
reading slack-alone $meet "eps / floats::larger(
        $slack,
        f64::MIN_POSITIVE,
    )" 'eps' 'replay slack-alone-* slack-less-*-quarter slack-less-before-half'
reading slack-squared $meet "$slack" 'geometry::dot(geometry::difference(b, a), geometry::difference(b, a))' \
    'replay slack-squared-* slack-less-*-long'
reading slack-less-before $meet 'hi >= -slack' 'hi > -slack' 'replay slack-less-before-*'
reading slack-less-behind $meet 'lo <= 1.0 + slack' 'lo < 1.0 + slack' 'replay slack-less-behind-* slack-alone-short-at'
# closest points of crossing edges are within eps: < for ≤; by a root; and the other edge's distance from the line by roots
reading near-less $meet 'geometry::dot(d, d) <= eps * eps' 'geometry::dot(d, d) < eps * eps' 'replay near-less-*'
reading near-root $meet 'geometry::dot(d, d) <= eps * eps' 'geometry::size(d) <= eps' 'replay near-root-*'
reading line-root $meet 'geometry::dot(n, n) / a11 > eps * eps' 'geometry::size(n) / floats::sqrt(a11) > eps' 'replay line-root-*'
# "together": extent < eps for ≤
reading together-less $area 'if far <= eps {' 'if far < eps {' 'numbers together-less-*'
# direction: root ≥ eps for > eps
reading direction-equal $area 'if geometry::longer(d, eps) {' 'if geometry::size(d) >= eps {' \
    'numbers direction-equal-*' 'replay direction-equal-*'
# direction: the longest difference, not the first with root > eps
reading direction-longest $area 'if geometry::longer(d, eps) {' 'if geometry::dot(d, d) >= self.most() {' \
    'numbers direction-longest-*' 'replay direction-longest-*'
# the squared distance in welding: dx² + (dy² + dz²)
reading sum-order snap/src/sweeping.rt 'geometry::dot(d, d) <= limit' 'd.x * d.x + (d.y * d.y + d.z * d.z) <= limit' \
    'numbers sum-order-*' 'replay sum-order-*'
# loose nodes are welded too; and a node that stands only in a run of one or two words, which is no ring, is taken for loose
reading loose-welded $welding 'if work[k + i] == 0 {' 'if work[k + i] > 1 {' 'numbers loose-*'
reading dropped-loose $welding "$each_word" "$short_run" 'numbers dropped-* sum-order-welded-*'
# the slack of a crossing's parameters
reading tiny-1e-9 $meet 'const TINY: f64 = 1e-12;' 'const TINY: f64 = 1e-9;' 'replay tiny-1e-9-*'
reading tiny-1e-3 $meet 'const TINY: f64 = 1e-12;' 'const TINY: f64 = 1e-3;' 'replay tiny-1e-* direction-equal-* slack-squared-short-*'
reading tiny-0 $meet 'const TINY: f64 = 1e-12;' 'const TINY: f64 = 0.0;' 'replay tiny-0-*'
# 64 × 2^-52 in eps, and in what counts as parallel
reading eps-half $eps '64.0 * f64::EPSILON * scale' '32.0 * f64::EPSILON * scale' \
    'replay eps-half-* slack-less-* slack-alone-short-at near-less-scale' \
    'numbers eps-half-* together-less-scale direction-longest-scale'
reading eps-zero $eps '64.0 * f64::EPSILON * scale' '0.0 * f64::EPSILON * scale' \
    'replay eps-* slack-less-* slack-squared-long-* slack-alone-short-* near-less-scale tiny-0-turned parallel-*-touch' \
    'numbers eps-* together-less-scale direction-longest-scale'
reading parallel-half $meet '64.0 * f64::EPSILON * a11' '32.0 * f64::EPSILON * a11' 'replay parallel-half-*'
reading parallel-zero $meet '64.0 * f64::EPSILON * a11' '0.0 * f64::EPSILON * a11' 'replay parallel-*'

echo "$((readings - 1)) wrong readings and the right one: $told of $readings told as they should be"
[ $told = $readings ]
