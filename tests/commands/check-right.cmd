# a loan to read only: the nurse's name, after the first seven requests
dock_at() { head -n 8 ../../crates/test_cases/data/ward.in | dock check --trace - "$@"; echo "$*: $?"; }
dock_at 1 0 1 0 1
dock_at 1 0 1 0 2
dock_at 1 0 1 1 1
