module mdbtest

go 1.19
