# Each of the four policies is put in force once: the program hands in all four.
00:00:01 policy priority
00:00:02 policy timetable
00:00:03 policy rotating
00:00:04 policy fcfs
