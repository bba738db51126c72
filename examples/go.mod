module examples

go 1.19

require ringpop v0.0.0

replace ringpop => ../go
