# Prints what could tie a module of LLVM's, as text, to a processor; nothing for one that is for any. It has a list of what may be there, so whatever is not known is told: instructions on integers, bytes
# in memory that lie where the module itself counts them to, a pointer compared with null, calls of its own functions and of three that every target has,
# pairs of integers as results inside the module, which are read from memory where integers of 32 and 64 bits are aligned to their size (platforms/library looks at that). Among what is not: conversions of pointers to integers and
# back, other comparisons of pointers, address spaces, inline assembly, intrinsics, vectors, floating point, wider integers, results in memory, calls through pointers, data.
# A place for one pointer may be read and written as a pointer alone, for it has 4 bytes where pointers have 32 bits.

function tell(why) {
    print FNR ": " why ": " $0
    bad = 1
}

# What is left of a line without names, texts and what stands behind an exclamation mark.
function plain(line) {
    gsub(/"[^"]*"/, "", line)
    gsub(/[%@][A-Za-z0-9._$-]*/, "NAME", line)
    sub(/(, )?!.*/, "", line)
    gsub(/\{ i(8|16|32|64), i(8|16|32|64) \}/, "PAIR", line)
    return line
}

# Whether a pointer's place stands in a line that does something else with it.
function uses_place(line,    word, n, i) {
    if (line ~ /^ *%[A-Za-z0-9._-]+ = load ptr, ptr / || line ~ /^ *store ptr /)
        return 0
    gsub(/[(),]/, " ", line)
    n = split(line, word, " ")
    for (i = 1; i <= n; i++)
        if (word[i] in place)
            return 1
    return 0
}

BEGIN {
    split("load store alloca call getelementptr br zext trunc ret icmp add sub mul udiv urem and or xor shl lshr switch unreachable select phi extractvalue", list, " ")
    for (i in list)
        instruction[list[i]] = 1
}

/^(;|!|$|}|source_filename = |target (datalayout|triple) = )/ || /^[A-Za-z0-9._-]+:( |$)/ { next }

/^declare / {
    if ($0 !~ /^declare void @llvm\.(memmove\.p0\.p0\.i64|memset\.p0\.i64|trap)\(/)
        tell("a function from elsewhere")
    next
}

/^attributes / {
    line = $0
    gsub(/"(probe-stack|stack-probe-size|target-cpu)"="[^"]*"/, "", line)
    if (line ~ /"/)
        tell("an attribute")
    next
}

/^define / {
    split("", place)
    if (plain($0) !~ /^define (internal (noundef )?PAIR|(internal )?(noundef )?(zeroext )?(void|ptr|i1|i8|i32|i64)) NAME\(((ptr|i1|i8|i32|i64)( noundef| zeroext)* NAME,? ?)*\) #0 \{$/)
        tell("a function of another kind")
    next
}

# The cases of a switch.
/^    i(8|16|32|64) [0-9-]+, label %/ || /^  \]$/ { next }

/^  / {
    line = plain($0)
    name = line
    sub(/^ +(NAME = )?/, "", name)
    sub(/ .*/, "", name)
    if (!(name in instruction))
        tell("an instruction of another kind")
    else if (name == "getelementptr" && line !~ /getelementptr (inbounds )?(nuw )?i8, ptr NAME, i64 (NAME|[0-9]+)$/)
        tell("an address that is no sum of a pointer and a number")
    else if (name == "icmp" && line !~ /icmp ([a-z]+ i(1|8|16|32|64) |eq ptr NAME, null$)/)
        tell("a comparison of other things than integers, or a pointer and null")
    else if (name == "call" && line !~ /call (noundef )?(zeroext )?(void|ptr|i1|i8|i32|i64|PAIR) (NAME)?\(/)
        tell("a call of another kind")
    else if (name == "call" && $0 !~ /call [a-z0-9 {},]*@/)
        tell("a call through a pointer")
    else if (name == "alloca" && line !~ /alloca (ptr|i1|i8|i32|i64|\[[0-9]+ x i8\]), align [1248]$/)
        tell("a place of another kind")
    else if (line ~ /PAIR/ && line !~ /^ +(NAME = (load PAIR, ptr NAME, align [48]|extractvalue PAIR NAME, [01]|call (noundef )?PAIR NAME\(.*)|ret PAIR NAME)$/)
        tell("a pair used as something else")
    else if (line ~ /[{}]/)
        tell("a struct")
    else if (line ~ /[^a-z](asm|addrspace|volatile|atomic|i128|i24|half|float|double|byval|sret|inalloca|musttail|blockaddress|undef|poison)[^a-z]|</)
        tell("something that may be tied to a processor")
    else if (uses_place($0))
        tell("a pointer's place used as something else")
    if ($0 ~ / = alloca ptr,/)
        place[$1] = 1
    next
}

{ tell("a line of another kind") }

END { exit bad }
