00:02:45 close L1
00:02:45 close E
