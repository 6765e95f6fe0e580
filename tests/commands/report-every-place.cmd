# a grant in every place: each bit of the report's scratch becomes a mark, and no line is missed or printed twice
report=$(dock report --trace ../../crates/test_cases/data/entries-256.in)
echo "$report" | sed -n '1,3p;$p'
echo "$report" | sed '1d;$d' | sort -u | wc -l
