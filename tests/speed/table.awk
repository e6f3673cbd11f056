# Tables of what was measured. First file: Erlang's lines (name, reading, writing); second file: the lines of speed.c. Of several
# passes the best counts. All numbers are nanoseconds a message.
BEGIN { FS = "\t" }

function best(times, ns) { if (!($1 in times) || ns < times[$1]) times[$1] = ns }

FNR == NR { best(read_erlang, $2); best(write_erlang, $3); next }

{ first_pass = !($1 in bytes); bytes[$1] = $2; messages[$1] = $3 }

$1 == "reset" { best(reset, $4); next }

$1 ~ /^packet-/ {
    if (first_pass) packets[++packet_count] = $1
    best(alone, $4); best(with_reading, $5); best(word, $6); best(drop, $7)
    next
}

$1 ~ /^worst-/ {
    if (first_pass) worst_keys[++worst_count] = $1
    best(read_exact, $4); best(write_exact, $5)
    next
}

{
    best(read_exact, $4); best(read_full, $5); best(read_libei, $6)
    best(write_exact, $7); best(write_full, $8); best(write_libei, $9)
    best(number, $10); best(text, $11); best(mark, $12)
}

!first_pass { next }

$1 ~ /^small-/ { small[++small_count] = $1; next }

{
    size = $1; sub(/.*-/, "", size)
    kind = $1; sub(/^size-/, "", kind); sub(/-[0-9]*$/, "", kind)
    if (!(kind in largest)) kinds[++kind_count] = kind
    largest[kind] = size
}

function name_of(kind, size) { return "size-" kind "-" size }

# The largest of the ratios seen, and where.
function worst(which, ratio, name) {
    if (ratio > worst_ratio[which]) { worst_ratio[which] = ratio; worst_name[which] = name }
    held[which] += ratio <= limit[which]
    seen[which]++
}

function reading_line(shown, n,    libei, erlang) {
    libei = read_exact[n] / read_libei[n]
    erlang = read_exact[n] / read_erlang[n]
    printf "%-22s %7.0f %10.0f %10.0f %10.0f %10.0f %9.2f %9.2f %9.2f\n", shown, bytes[n] / messages[n], read_exact[n], read_full[n], \
        read_libei[n], read_erlang[n], libei, erlang, read_full[n] / read_libei[n]
    worst("libei", libei, shown)
    worst("erlang", erlang, shown)
}

function writing_line(shown, n,    again) {
    again = read_libei[n] + write_libei[n]
    printf "%-22s %7.0f %10.0f %10.0f %10.0f %10.0f %9.2f %9.2f %9.2f %9.2f\n", shown, bytes[n] / messages[n], write_exact[n], write_full[n], \
        write_libei[n], write_erlang[n], write_exact[n] / write_libei[n], write_exact[n] / again, write_exact[n] / write_erlang[n], \
        write_exact[n] / (read_erlang[n] + write_erlang[n])
}

function question_line(shown, n,    slowest) {
    slowest = number[n] > text[n] ? number[n] : text[n]
    if (mark[n] > slowest) slowest = mark[n]
    printf "%-22s %7.0f %10.0f %10.0f %10.0f %10.0f %9.2f %9.2f %9.2f\n", shown, bytes[n] / messages[n], read_exact[n], number[n], text[n], mark[n], \
        number[n] / read_exact[n], text[n] / read_exact[n], mark[n] / read_exact[n]
    if (n ~ /^small-/) worst("questions", slowest / read_exact[n], shown)
}

function line(what, shown, n) {
    if (what == "reading") reading_line(shown, n)
    if (what == "writing") writing_line(shown, n)
    if (what == "questions") question_line(shown, n)
}

function each_line(what,    i) {
    for (i = 1; i <= small_count; i++) line(what, small[i], small[i])
    for (i = 1; i <= kind_count; i++) line(what, "large-" kinds[i], name_of(kinds[i], largest[kinds[i]]))
}

# A message of 4 KB and the largest one, whose line also says how much dearer its bytes are, and how many times what the largest map of binary keys takes.
function worst_line(n, before,    read_ns, write_ns, times) {
    read_ns = read_exact[n] / bytes[n]; write_ns = write_exact[n] / bytes[n]
    printf "%-28s %7.0f %10.0f %10.0f %9.2f %9.2f", n, bytes[n], read_exact[n], write_exact[n], read_ns, write_ns
    if (before) {
        times = read_exact[n] / read_exact[name_of("keys-binary", largest["keys-binary"])]
        printf " %9.2f %9.2f %9.2f", read_ns * bytes[before] / read_exact[before], write_ns * bytes[before] / write_exact[before], times
        worst("keys", times, n)
    }
    printf "\n"
}

# Nanoseconds a byte from 1 KB up to the largest size, which may be smaller than its heading: 8,192 rows end it.
function size_line(kind, time, what,    size, n, first, last, growth) {
    printf "%-22s", kind
    for (size = 1; size <= 64; size *= 2) {
        n = name_of(kind, size)
        if (!(n in time)) { printf " %8s", "-"; continue }
        last = time[n] / bytes[n]
        if (size == 4) first = last
        printf " %8.3f", last
    }
    growth = last / first
    printf " %9.2f\n", growth
    worst(what, growth, kind)
    if (growth > limit[what]) bent[what] = bent[what] " " kind
}

function sizes(what, time,    i) {
    printf "\n%s, nanoseconds a byte against size (table of the rows needed); last column: largest size / 4 KB\n", what
    printf "%-22s %8s %8s %8s %8s %8s %8s %8s %9s\n", "kind", "1 KB", "2 KB", "4 KB", "8 KB", "16 KB", "32 KB", "64 KB", "growth"
    for (i = 1; i <= kind_count; i++) size_line(kinds[i], time, what)
}

END {
    # Writing puts keys in order: 12 times as many take 1.4 times as many comparisons each; all with all would be 12 times.
    limit["libei"] = 1; limit["erlang"] = 0.5; limit["questions"] = 3; limit["Reading"] = 2; limit["Writing"] = 3
    print "Reading, nanoseconds a message"
    printf "%-22s %7s %10s %10s %10s %10s %9s %9s %9s\n", "corpus", "bytes", "ours", "ours 8192", "libei", "b_to_term", "/libei", "/b_to_t", "8192/libei"
    each_line("reading")
    print "\nWriting, nanoseconds a message (ours reads and writes; libei and term_to_binary write elements or a term made before)"
    printf "%-22s %7s %10s %10s %10s %10s %9s %9s %9s %9s\n", "corpus", "bytes", "ours", "ours 8192", "libei", "term_to_b", "/libei", "/ei both", "/t_to_b", "/erl both"
    each_line("writing")
    print "\nQuestions, nanoseconds: the number of the last row, text and mark of the last atom, and each beside reading the message"
    printf "%-22s %7s %10s %10s %10s %10s %9s %9s %9s\n", "corpus", "bytes", "reading", "number", "text", "mark", "number", "text", "mark"
    each_line("questions")
    print "\nPackets, nanoseconds a packet (libei and Erlang's functions take none); a payload is read where it is whole; ik_word of the last reference, where there is none refused"
    printf "%-22s %7s %10s %18s %8s %8s\n", "packets", "bytes", "ik_packet", "+ ik_read_payload", "ik_word", "ik_drop"
    for (i = 1; i <= packet_count; i++) {
        n = packets[i]
        printf "%-22s %7.0f %10.0f %18.0f %8.0f %8.0f\n", n, bytes[n] / messages[n], alone[n], with_reading[n], word[n], drop[n]
    }
    printf "ik_reset: %.0f\n", reset["reset"]
    sizes("Reading", read_exact)
    sizes("Writing", write_exact)
    print "\nThe dearest keys (docs/API.md, Cost): nanoseconds a message, then a byte, then how much dearer a byte of the largest is, each reading and writing; reading beside the largest map of binary keys, which is to be at most 20 (that of slots filled is not: docs/DECISIONS.md)"
    printf "%-28s %7s %10s %10s %9s %9s %9s %9s %9s\n", "keys", "bytes", "reading", "writing", "ns/byte", "ns/byte", "growth", "growth", "/binary"
    for (i = 1; i <= worst_count; i++) worst_line(worst_keys[i], i % 2 ? "" : worst_keys[i - 1])
    printf "reading at most %.2f times the map of binary keys (%s)\n", worst_ratio["keys"], worst_name["keys"]
    printf "\nno slower than libei: %d of %d; at least twice as fast as binary_to_term: %d of %d; questions on small messages at most 3 times reading: %d of %d\n", \
        held["libei"], seen["libei"], held["erlang"], seen["erlang"], held["questions"], seen["questions"]
    bent_all = (bent["Reading"] == "" ? "" : " reading" bent["Reading"]) (bent["Writing"] == "" ? "" : " writing" bent["Writing"])
    printf "linear: %s; reading at most %.2f times libei (%s), at most %.2f times binary_to_term (%s)\n", bent_all == "" ? "yes" : "no," bent_all, \
        worst_ratio["libei"], worst_name["libei"], worst_ratio["erlang"], worst_name["erlang"]
}
