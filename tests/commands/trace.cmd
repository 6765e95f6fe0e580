# every stored trace, answered as the trace program answers it
for text in ../../crates/test_cases/data/*.in; do
    dock trace <"$text" | cmp -s - "${text%.in}.out" || echo "another answer: ${text##*/}"
done
