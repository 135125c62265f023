# The same list, changed 100,000 times: the time of a change is the difference to list1m.
set list [lrepeat 1000000 a]
for {set i 0} {$i < 50000} {incr i} {
    lset list 500000 $i
    lappend list $i
}
puts "[llength $list] [lindex $list 500000] [lindex $list end]"
