# the ward's story in two parts: the second dock starts from the tables that the first one saved
story=../../crates/test_cases/data/ward.in
first=$(mktemp)
left=$(mktemp)
head -n 8 $story | dock trace --save "$first" | tail -n 1
dock report --tables "$first"
dock report --tables - <"$first" | cmp - /dev/null 2>/dev/null || echo "from standard input"
dock tree --tables "$first" | head -n 4
dock check --tables "$first" 1 0 1 0 1
echo "the nurse reads: $?"
dock check --tables "$first" 1 0 1 0 2
echo "the nurse writes: $?"
{ head -n 1 $story; tail -n +9 $story; } | dock trace --tables "$first" --save "$left"
echo "status $?"
dock save --trace $story | cmp - "$left" && echo "the tables that the whole story leaves"
# the store is not in the text: what was written is zeros in the second dock
{ head -n 1 $story; echo '1 0 5 1 0 0 0 0 0 0'; } | dock trace --tables "$first"
rm "$first" "$left"
