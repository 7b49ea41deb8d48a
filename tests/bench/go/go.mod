module rendezvous

go 1.19
