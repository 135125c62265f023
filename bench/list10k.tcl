# A list of 10,000 elements: beside it stands change10k, which changes it too.
set list [lrepeat 10000 a]
puts [llength $list]
