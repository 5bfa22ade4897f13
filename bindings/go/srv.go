package mdb

// #include "mdb.h"
import "C"

// AcceptedHosts are the hosts of an SRV lookup of the name that are in its domain, with commas between them; so are those found. One host of another
// domain refuses the lookup, and with skip it is left out. At BadRecords the text says why it is refused.
func AcceptedHosts(name, found string, skip bool) (string, error) {
	host, hosts, strangers := []byte(name), []byte(found), C.uint32_t(C.MDB_STRANGERS_REFUSE)
	if skip {
		strangers = C.MDB_STRANGERS_LEFT_OUT
	}
	return text(func(out *C.uint8_t, room C.size_t, needed *C.size_t) C.mdb_status {
		return C.mdb_srv_hosts(start(host), C.size_t(len(host)), start(hosts), C.size_t(len(hosts)), strangers, out, room, needed)
	})
}

// TxtOptions is what the TXT records of the name set, each the join of its strings, as a connection string has its options, each behind `&`. At BadRecords
// the text says which rule they break.
func TxtOptions(name string, records []string) (string, error) {
	host, first := []byte(name), []byte{}
	if len(records) > 0 {
		first = []byte(records[0])
	}
	return text(func(out *C.uint8_t, room C.size_t, needed *C.size_t) C.mdb_status {
		return C.mdb_srv_txt(start(host), C.size_t(len(host)), C.uint32_t(len(records)), start(first), C.size_t(len(first)), out, room, needed)
	})
}

// RescanSeconds is after how many seconds the records are looked up again, where so many hosts of the last lookup were accepted, 0 where it failed.
func RescanSeconds(accepted, ttl uint32, heartbeat uint64) uint64 {
	return uint64(C.mdb_srv_rescan(C.uint32_t(accepted), C.uint32_t(ttl), C.uint64_t(heartbeat)))
}
