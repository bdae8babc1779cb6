module fifobench

go 1.19
