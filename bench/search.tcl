# Looking for elements, exactly and by pattern.
set list {}
for {set i 0} {$i < 2000} {incr i} {
    lappend list name$i
}
set sum 0
for {set i 0} {$i < 100} {incr i} {
    incr sum [lsearch -exact $list name[expr {$i * 20}]]
    incr sum [llength [lsearch -all -glob $list *$i]]
}
puts $sum
