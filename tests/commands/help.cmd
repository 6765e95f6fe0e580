# help for every command that the first page names
dock --help | head -n 1
dock help | sed -n 's/^  dock \([a-z]*\) .*/\1/p' | while read -r command; do
    dock help "$command" | cmp - /dev/null 2>/dev/null || echo "$command"
    dock "$command" --help | head -n 1
done
