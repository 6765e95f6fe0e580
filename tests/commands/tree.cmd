# the ward's report for the eye: with all loans, with three taken grants, and of an emptied dock
story=../../crates/test_cases/data/ward.in
head -n 11 $story | dock tree --trace -
echo "status $?"
{ head -n 11 $story; echo '1 0 1 0 0 0 0 20 2 0'; echo '0 1 2 1 0 2 1 1 4 0'; echo '3 7 1 0 0 0 0 231 7 0'; } | dock tree --trace -
dock tree | sed -n '1,4p;$p'
