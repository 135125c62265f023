# A text of a million characters: what stands in it, replaced by a map, cut and joined.
set text [string repeat "the quick brown fox jumps over it " 30000]
set count 0
for {set turn 0} {$turn < 5} {incr turn} {
    incr count [string length [string map {quick slow fox hound} $text]]
    incr count [string first "cat" $text]
    incr count [llength [split $text " "]]
    incr count [string length [join [split $text " "] "-"]]
}
puts $count
