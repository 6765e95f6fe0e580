# wrong words, files that can't be read or written: 125
try() { "$@"; echo "status $?"; }
try dock
try dock fly
try dock trace here
try dock trace --from here
try dock trace --trace
try dock trace --trace a --trace b
try dock trace --trace -
try dock trace --trace nowhere </dev/null
try dock check 1 2 3
try dock check 0 0 1 0 65536
try dock check 0 0 1 0 +1
try dock help fly
dock trace <../../crates/test_cases/data/ward.in >/dev/full
echo "status $?"
