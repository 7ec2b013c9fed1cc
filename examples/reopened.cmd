00:02:45 close E
00:05:00 open E
