# A list that grows element by element.
set list {}
for {set i 0} {$i < 200000} {incr i} {
    lappend list $i
}
puts [llength $list]
