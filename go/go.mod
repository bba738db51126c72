module ringpop

go 1.19
