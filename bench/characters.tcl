# The characters of a text, one by one by their places.
set text [string repeat "abcdefghij" 2000]
set len [string length $text]
set count 0
for {set i 0} {$i < $len} {incr i} {
    if {[string index $text $i] eq "d"} {
        incr count
    }
}
puts $count
