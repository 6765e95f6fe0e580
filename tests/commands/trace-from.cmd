# the ward's story in two parts: the second starts from the dock that the first leaves
story=../../crates/test_cases/data/ward.in
first=$(mktemp)
head -n 8 $story >"$first"
{ head -n 1 $story; tail -n +9 $story; } | dock trace --trace "$first"
echo "status $?"
rm "$first"
