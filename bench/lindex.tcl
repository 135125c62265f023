# The elements of a long list by their places.
set list {}
for {set i 0} {$i < 100000} {incr i} {
    lappend list $i
}
set sum 0
for {set i 0} {$i < 100000} {incr i} {
    incr sum [lindex $list $i]
}
puts $sum
