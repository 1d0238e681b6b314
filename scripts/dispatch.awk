# Reads include/splicebell.h and writes C: each call, defined as the call of that name at the level in use. The text
# goes after scripts/processor.c. The types are the header's own, so the compiler tests that they agree.
#
#     awk -v levels="x86_64 x86_64_v3 x86_64_v4" -f scripts/dispatch.awk include/splicebell.h
#     awk -v names=1 -f scripts/dispatch.awk include/splicebell.h      the names of the calls alone

{ text = text $0 "\n" }

function without_comments(rest,    kept, begins) {
    while ((begins = index(rest, "/*")) > 0) {
        kept = kept substr(rest, 1, begins - 1) " "
        rest = substr(rest, begins + 2)
        rest = substr(rest, index(rest, "*/") + 2)
    }
    return kept rest
}

# the names of the parameters in PROTOTYPE, with commas between
function arguments(prototype,    count, parameters, i, given) {
    sub(/^[^(]*\(/, "", prototype)
    sub(/\)$/, "", prototype)
    count = split(prototype, parameters, ",")
    for (i = 1; i <= count; i++) {
        sub(/.*[ *]/, "", parameters[i])
        given = given (i > 1 ? ", " : "") parameters[i]
    }
    return given
}

# NAME at each level, with commas between; in a table each stands at its level's place
function at_levels(name, in_table,    count, level, i, all) {
    count = split(levels, level, " ")
    for (i = 1; i <= count; i++)
        all = all (i > 1 ? ", " : "") (in_table ? "[" toupper(level[i]) "] = " : "") name "_" level[i]
    return all
}

END {
    count = split(without_comments(text), pieces, ";")
    for (i = 1; i <= count; i++) {
        prototype = pieces[i]
        gsub(/[ \n]+/, " ", prototype)
        sub(/^ /, "", prototype)
        if (prototype !~ /^[a-z0-9_]+ splicebell_[a-z0-9_]+\([^(){}]*\)$/)
            continue
        name = prototype
        sub(/\(.*/, "", name)
        sub(/.* /, "", name)
        if (names) {
            print name
            continue
        }
        printf "\n__attribute__((visibility(\"hidden\"))) extern __typeof__(%s) %s;\n", name, at_levels(name, 0)
        printf "%s\n{\n", prototype
        printf "    static __typeof__(%s) *const at_level[] = {%s};\n", name, at_levels(name, 1)
        printf "    return at_level[level()](%s);\n}\n", arguments(prototype)
    }
}
