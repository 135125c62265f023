# Prints a table of squares and cubes whose columns are aligned to the right.
set width 6
foreach n {1 2 3 10 20} {
    set line {}
    foreach value [list $n [expr {$n ** 2}] [expr {$n ** 3}]] {
        set digits [llength [split $value {}]]
        append line [join [lrepeat [expr {$width - $digits}] { }] {}] $value
    }
    puts $line
}
