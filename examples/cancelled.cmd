00:00:10 cancel A
