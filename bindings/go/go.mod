module mdb

go 1.19
