# A small test runner: each test is a script and the result that it must have. It reports which tests
# passed and which failed, and ends with status 1 where one failed.
set count(passed) 0
set count(failed) 0

# Evaluates the script of a test, and reports how it ended.
proc test {name script wanted} {
    global count
    if {[catch {uplevel #0 $script} result]} {
        set verdict failed
        set why ": error: $result"
    } elseif {$result ne $wanted} {
        set verdict failed
        set why ": wanted $wanted, got $result"
    } else {
        set verdict passed
        set why {}
    }
    incr count($verdict)
    puts "$verdict  $name$why"
}

# The procedures under test.
proc least list {
    if {[llength $list] == 0} {
        error "an empty list has no least element"
    }
    lindex [lsort -integer $list] 0
}

proc tally {words arrayName} {
    upvar 1 $arrayName counts
    foreach word $words {
        incr counts($word)
    }
}

test "the least element" {least {4 2 9}} 2
test "the least of none" {
    catch {least {}} message
    set message
} "an empty list has no least element"
test "counts of words" {
    tally {pear plum pear} seen
    list $seen(pear) $seen(plum)
} {2 1}
test "a wrong expectation" {least {3 1 2}} 3
test "a word among numbers" {least {3 one 2}} 2

puts "$count(passed) passed, $count(failed) failed"
exit [expr {$count(failed) > 0}]
