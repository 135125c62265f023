# Sorting: by number, by text, in both directions, and without equals.
set list {}
set x 12345
for {set i 0} {$i < 3000} {incr i} {
    set x [expr {($x * 1103515245 + 12345) % 2147483648}]
    lappend list [expr {$x % 5000}]
}
for {set turn 0} {$turn < 10} {incr turn} {
    set a [lsort -integer $list]
    set b [lsort $list]
    set c [lsort -integer -decreasing -unique $list]
}
puts "[lindex $a 0] [lindex $b 0] [lindex $c 0] [llength $c]"
