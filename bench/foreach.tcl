# A loop over the elements of a list, two at a time.
set list {}
for {set i 0} {$i < 2000} {incr i} {
    lappend list $i
}
set sum 0
for {set turn 0} {$turn < 30} {incr turn} {
    foreach {a b} $list {
        incr sum $b
        incr sum -$a
    }
}
puts $sum
