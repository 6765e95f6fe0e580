# a start that is refused, and wrong words
printf 'pad program\n' | dock report --trace -
echo "status $?"
printf 'pad program\n' | dock tree --trace -
echo "status $?"
for words in 'report here' 'report --svg' 'report --trace' 'report --trace nowhere' 'tree here' 'tree --svg --svg' 'tree --trace --svg' 'tree --png'; do
    dock $words
    echo "$words: $?"
done
dock report >/dev/full
echo "status $?"
