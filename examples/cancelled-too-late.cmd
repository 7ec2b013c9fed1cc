00:02:30 cancel A
