# an afternoon: short forms went into the smallest holes, so that a run of 96 sheets is left, and the long form gets it
afternoon=../../crates/test_cases/data/afternoon.in
head -n 14 $afternoon | dock tree --trace -
dock trace <$afternoon | tail -n 1
dock tree --trace $afternoon | sed -n '1,2p;9,10p;21,$p'
# one sheet more is refused: no hole has it, though more are free
{ head -n 14 $afternoon; echo '0 0 1 0 0 0 0 97 7 0'; } | dock trace | tail -n 1
