# where takes lie, by the first sheets and counts of the report: in the smallest hole with room, of equals the lowest, from its lowest sheet
for name in smallest-hole-above smallest-hole-below exact-hole equal-holes equal-holes-above lowest-sheet-of-hole hole-at-first-sheet \
    hole-at-last-sheet hole-too-short-too-long holes-join hole-beside-lent three-sizes-of-hole; do
    echo "$name"
    dock report --trace ../../crates/test_cases/data/take-$name.in | tail -n +2
done
dock report --trace ../../crates/test_cases/data/take-128-holes.in | sed -n '2,7p;$p'
# the same of one take after another, by the dock's own check of its sheets and of those beside them
holes=../../crates/test_cases/data/take-three-sizes-of-hole.in
for words in '11 0 1 1 11' '11 0 1 1 13' '11 0 1 1 14' '12 0 1 2 15' '12 0 1 2 16' '12 0 1 2 19' '13 0 1 3 14' '13 0 1 3 0'; do
    head -n "${words%% *}" $holes | dock check --trace - ${words#* } 1
    echo "$words: $?"
done
