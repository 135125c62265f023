# Reading a list from a text that is new each time.
set text {}
for {set i 0} {$i < 2000} {incr i} {
    append text " {element $i} " $i
}
set sum 0
for {set turn 0} {$turn < 100} {incr turn} {
    incr sum [llength "$text $turn"]
}
puts $sum
