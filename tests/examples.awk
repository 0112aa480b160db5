# The indented blocks of docs/C.md from "The examples" on, as one C program: the first of them before main, the others in it, a scope each.
/^#/ { ended() }
/^## The examples$/ { begun = 1 }
begun && /^    / {
    if (!open++) printf "%s#line %d \"docs/C.md\"\n", blocks == 1 ? "int main(void) {\n{\n" : blocks ? "{\n" : "", NR
    print substr($0, 5)
}
begun && /^$/ && open { print }
begun && /^[^ ]/ { ended() }
END { ended(); print "return 0; }" }

function ended() {
    if (open) print blocks++ ? "}" : ""
    open = 0
}
