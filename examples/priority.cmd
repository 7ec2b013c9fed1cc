00:01:00 policy priority
00:01:00 priority A 0
