00:03:10 go A
00:03:10 stop A
