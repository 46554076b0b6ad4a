# Adds the clock to a receiver's lines, each second: a tick in Unix time, and a question for the table.
# A frame comes after the tick of its second, so the first frame after a silence has its own time.
systime() > now { now = systime(); print "+" now "000"; print "?" }
{ print; fflush() }
