# Splitting and joining.
set line [join [lrepeat 1000 a b c] ,]
set sum 0
for {set turn 0} {$turn < 50} {incr turn} {
    incr sum [llength [split $line ,]]
    set line [join [split $line ,] ,]
}
puts $sum
