# The track B3 is closed for works, and T05 waits for a doctor.
00:20:00 close B3
00:45:00 open B3
00:50:00 stop T05
01:05:00 go T05
# T12 does not run, and the goods train T08 lets the others go first.
01:10:00 cancel T12
01:10:00 priority T08 9
01:10:00 policy priority
02:00:00 policy fcfs
02:00:00 retire rotating
