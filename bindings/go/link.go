package mdb

// In a checkout: the library that `make -C bindings` builds. A release has this file with the archives beside it.

// #cgo CFLAGS: -I${SRCDIR}/../../include
// #cgo LDFLAGS: ${SRCDIR}/../out/libmdb.a
import "C"
