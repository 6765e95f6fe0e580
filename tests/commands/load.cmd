# texts that load and texts that do not, from standard input and from a file
saved=$(mktemp)
head -n 8 ../../crates/test_cases/data/ward.in | dock save --trace - >"$saved"
try() { dock load; echo "$*: $?"; }
try as saved <"$saved"
try nothing </dev/null
head -n 1 "$saved" | try the names alone
head -c -1 "$saved" | try no last byte 10
sed '/^5 1 0 1/d' "$saved" | try a loan without its entry
sed '/^5 0 0 1/d' "$saved" | try a taken grant without its entry
sed '2d' "$saved" | try without a program
sed 's/^0 0 0 2/0 0 0 02/' "$saved" | try a leading zero
sed 's/^0 0 0 2/0 0 0 65536/' "$saved" | try 65536
sed 's/^0 0 0 2/0 0 0 65535/' "$saved" | try 65535
sed 's/^5 0 0 1 0 0 0 0/5 0 0 1 0 0 1 0/' "$saved" | try a parent 0 1 0
sed 's/^5 0 0 1/6 0 0 1/' "$saved" | try kind 6
head -c 70000 /dev/zero | try zeros
dock load "$saved"
echo "a file: $?"
dock load - <"$saved"
echo "standard input by name: $?"
rm "$saved"
for words in 'load nowhere' 'load a b' 'load --tables' 'load --trace a' 'save here' 'save --svg' 'save --tables' 'save --tables nowhere'; do
    dock $words
    echo "$words: $?"
done
dock save >/dev/full
echo "a full device: $?"
