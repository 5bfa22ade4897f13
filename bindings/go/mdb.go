// Package mdb is one driver's connection pools, and what it knows of its servers, over the C library of include/mdb.h. It is told what happened, step by
// step: moments are in milliseconds.
package mdb

/*
#include "mdb.h"
*/
import "C"

import (
	"fmt"
	"runtime"
	"sync"
)

// A Driver may be shared by many goroutines: a lock gives it to one call at a time, or by Do to several that belong together. It holds memory of C's until
// Close; one that is forgotten is closed by the garbage collector. It is not copied.
type Driver struct {
	turn sync.Mutex
	tx   Tx
}

// Open opens a driver by an `open` line of a script, as `open seeds=a:27017 max=10`.
func Open(line string) (*Driver, error) {
	if C.mdb_abi() != C.MDB_ABI {
		return nil, fmt.Errorf("mdb: the library has the interface %d, and this package is for %d", C.mdb_abi(), C.MDB_ABI)
	}
	d := new(Driver)
	text := []byte(line)
	if err := failed(C.mdb_open_line(&d.tx.slot, 0, start(text), C.size_t(len(text)))); err != nil {
		return nil, err
	}
	runtime.SetFinalizer(d, (*Driver).Close)
	return d, nil
}

// Close frees the driver. Each later call answers Closed; a second Close does nothing.
func (d *Driver) Close() {
	d.turn.Lock()
	defer d.turn.Unlock()
	C.mdb_close(&d.tx.slot)
}

// Do holds the driver's lock while the function runs, so that a step and its facts, or a question and the step that follows it, come without another's between
// them. The function makes its calls by what it is given: one of the driver's own would wait for ever. Its error is Do's.
func (d *Driver) Do(within func(*Tx) error) error {
	d.turn.Lock()
	defer d.turn.Unlock()
	defer func() { d.tx.Seat = 0 }()
	return within(&d.tx)
}
