module queues

go 1.19

require fifobench v0.0.0

replace fifobench => ../../../examples/recorders/go
