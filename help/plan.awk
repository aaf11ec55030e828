# The crates that rt proves for `program`, itself included, in rt's order: each behind those that it depends on, which
# come in the order of its line. Input: crates.txt.
{ sub(/#.*/, "") }
/:/ { split($0, side, ":"); split(side[1], words, " "); needs[words[1]] = side[2] }

function visit(name,    on, count, k) {
    if (!(name in needs) || name in seen) return
    seen[name] = 1
    count = split(needs[name], on, " ")
    for (k = 1; k <= count; k++) visit(on[k])
    printf "%s ", name
}

END { visit(program) }
