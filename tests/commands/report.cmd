# the ward's story, where the report changes: taken, lent, lent on, lent to a third pad, recalled, given back, taken anew
story=../../crates/test_cases/data/ward.in
for lines in 1 2 4 7 11 13 16 20; do
    head -n $lines $story | dock report --trace -
    echo "status $?"
done
dock report --trace $story
echo "the whole story: $?"
dock report
echo "an emptied dock: $?"
