# a letter for each of 256 taken grants, from A again behind the sixty-second; the longest chain of loans
{
    echo 'pad program op ticket topad toprogram first count rights fill'
    for pad in 0 1 2 3; do
        for program in 0 1 2 3 4 5 6 7; do
            for place in 1 2 3 4 5 6 7 8; do echo "$pad $program 1 0 0 0 0 1 7 0"; done
        done
    done
} | dock tree --trace - | sed -n '2,3p;63,65p;257,$p'
head -n 129 ../../crates/test_cases/data/chain-127-across-pads.in | dock tree --trace - | sed -n '1,4p;129p' | tr -s ' '
