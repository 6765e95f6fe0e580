# the tables after holes of three sizes were filled, as text, but for the programs
holes=../../crates/test_cases/data/take-three-sizes-of-hole.in
dock save --trace $holes | grep -v '^0 '
# a dock that starts from the text takes the same sheets: swapped before each request in turn
whole=$(mktemp)
first=$(mktemp)
left=$(mktemp)
dock save --trace $holes >"$whole"
for lines in $(seq 1 17); do
    head -n "$lines" $holes | dock trace --save "$first" >/dev/null
    { head -n 1 $holes; tail -n +$((lines + 1)) $holes; } | dock trace --tables "$first" --save "$left" >/dev/null
    cmp "$whole" "$left" && echo "the same"
done | sort -u
rm "$whole" "$first" "$left"
