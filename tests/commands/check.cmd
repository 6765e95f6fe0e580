# the dock's own check of the last taker's four sheets: 0 to 3, all rights
for words in '2 3 1 0 1' '2 3 1 3 2' '2 3 1 4 1' '2 3 1 256 1' '2 3 1 0 4' '2 3 2 0 1' '0 0 1 0 1' '9 9 9 0 1'; do
    dock check --trace ../../crates/test_cases/data/ward.in $words
    echo "$words: $?"
done
dock check 0 0 1 0 1
echo "an emptied dock: $?"
