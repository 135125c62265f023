# A list of 1,000,000 elements: beside it stands change1m, which changes it too.
set list [lrepeat 1000000 a]
puts [llength $list]
