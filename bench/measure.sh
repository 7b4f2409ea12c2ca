#!/usr/bin/env bash
# Times the built program on the examples and on instances that are named in docs/PERFORMANCE.md: by the clock and in
# processor seconds, each the least of three runs. Needs a built program (run ./pallet once).
set -eu
top=$(cd "$(dirname "${BASH_SOURCE[0]}")/.." && pwd)
program=$top/crates/pallet/out/pallet
work=$(mktemp -d)
trap 'rm -rf "$work"' EXIT
header=id,pallet_x,pallet_y,case_x,case_y,case_z,weight,max_height,max_weight,contact,support,cut

# The least of three runs of these words on this input.
least() {
    local name=$1 input=$2 best=
    shift 2
    for _ in 1 2 3; do
        local spent
        spent=$( { TIMEFORMAT='%R %U'; time "$program" "$@" <"$input" >"$work/out" 2>/dev/null || true; } 2>&1 )
        if [ -z "$best" ] || [ "$(printf '%s\n%s\n' "$spent" "$best" | sort -n | head -1)" = "$spent" ]; then
            best=$spent
        fi
    done
    printf '%-44s %8s s by the clock, %8s s of processor time, %s\n' "$name" ${best% *} ${best#* } "$(grep -c '^status optimal' "$work/out" || true) optimal"
}

for example in "$top"/examples/*.csv; do
    least "plan $(basename "$example")" "$example" plan
    cp "$work/out" "$work/report"
    least "check of that report" "$work/report" check
done
plan_and_check() {
    printf '%s\nA,%s,1,1,1,1,0,0,100\n' "$header" "$1" >"$work/orders.csv"
    least "plan $1" "$work/orders.csv" plan
    cp "$work/out" "$work/report"
    least "check of that report" "$work/report" check
}

echo "Orders that L-regions close:"
for sides in 43,26,7,3 61,38,10,3 63,44,8,5 61,35,10,3 74,49,11,4 93,46,13,4 106,59,13,5 108,65,10,7 141,71,13,8 104,69,12,7; do
    plan_and_check "$sides"
done
echo "Orders that tables close:"
for sides in 12,11,7,2 19,12,7,2 47,27,10,3 54,37,10,3 66,51,9,7 87,48,11,6 49,42,8,5; do
    plan_and_check "$sides"
done
echo "Orders with a large pallet, many cases or thin ones:"
for sides in 71,57,13,4 12,191,6,1 37,18,13,3 26,20,7,4 4000,12,4000,1 1000,1,1,1 199,197,31,23 1200,1000,73,47 3999,3001,113,107 200,183,15,11 191,185,13,10; do
    plan_and_check "$sides"
done

# A report whose certificate is a table of 40,000 cells: that of the area, in which each cell weighs 1.
printf '%s\nA,200,200,8,7,1,1,1,1,0,0,100\n' "$header" >"$work/orders.csv"
"$program" plan <"$work/orders.csv" >"$work/out" || true
awk '/^reduced/ { x = $2; y = $3 }
    /^weighting/ { print "weighting table", x, y; for (j = 0; j < y; j++) { line = "row"; for (i = 0; i < x; i++) line = line " 1"; print line }; next }
    { print }' "$work/out" >"$work/report"
least "check of a table of $(awk '/^weighting table/ { print $3 * $4 }' "$work/report") cells" "$work/report" check
