# A counting loop: a test, a body of two commands.
set i 0
set sum 0
while {$i < 200000} {
    incr sum $i
    incr i
}
puts $sum
