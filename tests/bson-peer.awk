# The verdicts of tests/bson-peer, which names the classes. Lines: script line, libbson's opinion
# (see bson-peer.c), the program's answer, with tabs between them. Prints the classes and their
# counts; a line that belongs to none goes, with its number, to the file `unexplained`.
BEGIN { FS = "\t" }

# The program accepts: libbson must read the same and know no rule of ours that is broken.
function accepted() {
    if (walk == "none") return answer == "T version=- hash=- mtu=- rejected=-" ? "no bytes" : ""
    if (walk != "ok" || limit != 0 || tags != answer) return ""
    if (validate == "ok") return "accept"
    return text ~ /key/ ? "key text" : ""
}

# The program refuses with number: 30 is told by the length alone, and a rule of ours that
# is broken before the fault that libbson sees, if any, gives the number.
function refused() {
    if ((limit == 30) != (number == 30) || limit != 0 && limit != number) return ""
    if (walk != "ok" && validate == "bad") return "refuse " number
    # One of the two ways of libbson accepts; a broken rule of ours came first, if there is one.
    if (limit != 0) return "limit " number
    if (walk == "ok") return ""
    if (walk == "nested") return "nested"
    return text ~ /string/ ? "behind text" : ""
}

function class() {
    if (answer ~ /^T /) return accepted()
    if (answer ~ /^R 3[0-4]$/) return refused()
    return ""
}

{
    answer = $3 ""
    number = substr(answer, 3) + 0
    split($2, facts, /[ =]/)
    validate = facts[2]; walk = facts[4]; text = facts[6]; limit = facts[8] + 0
    tags = $2
    sub(/^.* limit=[0-9]+ /, "", tags)
    found = class()
    if (found == "") print NR "\t" $0 > unexplained
    else count[found]++
}

END { for (found in count) print found "\t" count[found] }
