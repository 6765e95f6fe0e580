# a text that the trace program refuses whole has the same output here; as a start it is refused
printf 'pad program\n' | dock trace
echo "status $?"
head -c 65537 /dev/zero | dock trace
echo "status $?"
printf 'pad program\n' | dock check --trace - 0 0 1 0 1
echo "status $?"
head -c 65537 /dev/zero | dock check --trace - 0 0 1 0 1
echo "status $?"
