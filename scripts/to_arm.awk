# Makes an Arm module of the x86-64 module that the kit's back end gives its compiler. The code is the same. What changes
# is how the exported functions are called, from the System V convention for x86-64 to that of Arm:
# - a struct of more than 16 bytes as an argument is passed as the address of a copy, not laid on the stack;
# - the room for such a result is passed as Arm's result address, and is not returned again.

/^target datalayout/ { next }
/^target triple/ { print "target triple = \"aarch64-unknown-linux-gnu\""; next }
/^attributes/ { gsub(/"(target-cpu|probe-stack|stack-probe-size)"="[^"]*"/, "") }

/^define / && !/^define internal/ {
    gsub(/byval\(\[[0-9]+ x i8\]\) align 8 /, "")
    room = sub(/^define noundef ptr @/, "define void @")
    if (room)
        sub(/\(ptr noundef %a0/, "(ptr noundef sret([8 x i8]) %a0")
}
room && /^  ret ptr %a0$/ { print "  ret void"; next }
/^}/ { room = 0 }

{ print }
