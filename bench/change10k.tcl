# The same list, changed 100,000 times: the time of a change is the difference to list10k.
set list [lrepeat 10000 a]
for {set i 0} {$i < 50000} {incr i} {
    lset list 5000 $i
    lappend list $i
}
puts "[llength $list] [lindex $list 5000] [lindex $list end]"
