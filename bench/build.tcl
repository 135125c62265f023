# A text that grows by pieces.
set text {}
for {set i 0} {$i < 4000} {incr i} {
    append text "line " $i "\n"
}
puts [llength [split $text \n]]
