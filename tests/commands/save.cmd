# the tables after the ward's first seven requests, as text; then those of an emptied dock, but for the programs that have no number
story=../../crates/test_cases/data/ward.in
head -n 8 $story | dock save --trace - | grep -v '^0 . . 0 '
dock save | grep -vc '^0 . . 0 0 0 0 0 0 0 0$'
# what was saved loads, and is what saving writes: of every stored trace that is not refused whole
saved=$(mktemp)
for text in ../../crates/test_cases/data/*.in; do
    dock save --trace "$text" >"$saved" 2>/dev/null || continue
    dock save --tables "$saved" | cmp - "$saved" && echo "the same"
done | sort -u
rm "$saved"
