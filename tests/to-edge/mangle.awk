# Writes `graphs` small random graphs into `folder`, each twice: as NUMBER.clean with each pair once, in the form that the reader accepts, and as
# NUMBER.mangled with repeated pairs, which stay, and with what tools/to-edge has to undo. NUMBER.lines has how many e lines stay. The numbers are those
# of a small generator of its own, so that they are the same under every awk.

function below(bound) {
    state = state * 16807 % 2147483647
    return state % bound
}

function often() { return below(3) == 0 }

# One to three blanks; a single space where this text has none to spare.
function gap(    blanks, i) {
    if (!loose || !often()) return " "
    blanks = ""
    for (i = below(3); i >= 0; i--) blanks = blanks (below(2) ? " " : "\t")
    return blanks
}

function edge_of_line() { return loose && often() ? gap() : "" }

function digits(number) { return (zeros && often() ? substr("000", 1, 1 + below(3)) : "") number }

# Adds a line to the mangled text; the line end of the last one comes last, if at all.
function put(line) {
    mangled = mangled (started ? ending : "") edge_of_line() line edge_of_line()
    started = 1
    if (blank && often()) mangled = mangled ending edge_of_line()
    if (notes && often()) mangled = mangled ending (below(2) ? "c a note" : below(2) ? "c" : "cnote")
    if (values && often()) mangled = mangled ending "n" gap() 1 gap() 7
}

function put_edge(u, v) {
    stood++
    if (u != v) stay++
    if (below(2)) put("e" gap() digits(u) gap() digits(v))
    else put("e" gap() digits(v) gap() digits(u))
}

BEGIN {
    state = 1
    for (number = 1; number <= graphs; number++) {
        n = 1 + below(10)
        density = 1 + below(9)
        edges = 0
        for (u = 1; u <= n; u++) for (v = u + 1; v <= n; v++) if (below(10) < density) {
            from[++edges] = u
            to[edges] = v
        }
        file = folder "/" number ".clean"
        print "p edge", n, edges > file
        for (i = 1; i <= edges; i++) print "e", from[i], to[i] > file
        close(file)

        ending = below(2) ? "\r\n" : "\n"
        loose = below(2)
        blank = below(2)
        notes = below(2)
        values = below(3) == 0
        zeros = below(3) == 0
        repeats = below(2)
        loops = below(3) == 0
        mangled = below(4) == 0 ? "\357\273\277" : ""
        started = 0
        stood = 0
        stay = 0
        if (notes) put("c a title")
        word = below(3)
        put("p" gap() (word == 0 ? "edge" : word == 1 ? "col" : "edges") gap() digits(n) gap() "@")
        for (i = 1; i <= edges; i++) {
            put_edge(from[i], to[i])
            again = 1 + below(i)
            if (repeats && often()) put_edge(from[again], to[again])
            if (loops && often()) put_edge(to[i], to[i])
        }
        # M counts the edges, the e lines as they stand, or those that stay.
        counted = below(3)
        sub(/@/, digits(counted == 0 ? edges : counted == 1 ? stood : stay), mangled)
        file = folder "/" number ".mangled"
        printf "%s%s", mangled, (below(4) ? ending : "") > file
        close(file)
        file = folder "/" number ".lines"
        print stay > file
        close(file)
    }
}
