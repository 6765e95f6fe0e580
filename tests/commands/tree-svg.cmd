# the same as a picture
head -n 8 ../../crates/test_cases/data/ward.in | dock tree --svg --trace -
echo "status $?"
# well formed, where there is something to tell
if command -v xmllint >/dev/null; then
    for text in ../../crates/test_cases/data/entries-256.in ../../crates/test_cases/data/chain-127-across-pads.in; do
        dock tree --trace "$text" --svg | xmllint --noout -
    done
fi
