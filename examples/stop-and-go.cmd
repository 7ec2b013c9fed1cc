00:03:10 stop A
00:03:10 go A
