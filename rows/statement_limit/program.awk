# Writes its input, then n statements EXIT, five a line, and then the statements `last` in a line of their own.
{ print }
END {
    for (i = 5; i <= n; i += 5)
        print "           EXIT EXIT EXIT EXIT EXIT"
    for (i -= 5; i < n; i++)
        print "           EXIT"
    print "           " last "."
}
