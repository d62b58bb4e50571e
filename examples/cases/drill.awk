# The script of a drill, made here another way than the program makes it: awk -v number=1 -f drill.awk.
# A draw is of 32 bits that wrap.
function after(state) { return (state * 1664525 + 1013904223) % 4294967296 }
function digits(draw) { return sprintf("%02x%02x", int(draw / 256) % 256, draw % 256) }
function step(kind, draw,    entity) {
    kind %= 16
    entity = "272 " draw % 512
    if (kind <= 3) print "create low " entity " " digits(draw) "\nflow 2"
    else if (kind <= 6) print "set low " entity " 8000 " digits(draw) "\nflow 1"
    else if (kind <= 8) print "delete low " entity "\nflow 2"
    else if (kind <= 10) print "get high " entity " 8000\nflow 2"
    else if (kind == 11) print "flow 1"
    else if (kind == 12) print "tick"
    else if (kind == 13) printf "alarm 11 257 %02x\nflow 1\n", int(draw / 256) % 256
    else if (kind == 14) print "audit\nflow 20"
    else print "resync\nflow 2000"
}
BEGIN {
    print "omci 1 4096 1 1 ff\nresync\nflow 100"
    state = number
    for (turn = 1; turn <= 5000; turn++) {
        first = after(state)
        state = after(first)
        step(int(first / 65536), int(state / 65536))
        if (turn % 1000 == 0) print "cut unit\nstart unit\nresync\nflow 2000"
    }
}
