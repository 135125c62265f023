# A list that is copied and then changed, so that the two share what they have in common.
set list {}
for {set i 0} {$i < 100} {incr i} {
    lappend list "element $i"
}
for {set i 0} {$i < 10000} {incr i} {
    set copy $list
    lset copy 50 $i
    lappend copy $i
}
puts "[lindex $list 50] [llength $list] [lindex $copy 50] [llength $copy]"
