# a start that does not load, and wrong words
names='pad program op ticket topad toprogram first count rights fill'
for command in trace report tree save 'check 0 0 1 0 1'; do
    echo "$names" | dock $command --tables ../../crates/test_cases/data/ward.in
    echo "$command: $?"
done
dock save | sed 's/^0 0 0 0/0 0 0 1/; $a 4 0 0 1 0 0 0 0 0 0 0' | dock report --tables -
echo "a recall of nothing: $?"
try() { echo "$names" | dock "$@"; echo "status $?"; }
try report --tables a --trace b
try trace --trace a --tables b
try report --tables a --tables b
try trace --tables -
try trace --save
try trace --save a --save b
try trace --save -
try report --save a
try trace --save nowhere/left
try trace --save /dev/full
