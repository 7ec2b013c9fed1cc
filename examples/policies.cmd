00:01:00 policy priority
00:01:00 retire priority
00:01:00 retire fcfs
