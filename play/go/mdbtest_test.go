package mdbtest

import (
	"bufio"
	"encoding/binary"
	"io"
	"net"
	"regexp"
	"testing"
)

// insert sends `{insert: "items", documents: [{n: 1}], $db: "test"}` by hand, and gives the size of the answer.
func insert(t *testing.T, address string) int {
	t.Helper()
	connection, err := net.Dial("tcp", address)
	if err != nil {
		t.Fatal(err)
	}
	defer connection.Close()
	one := "\x0c\x00\x00\x00\x10n\x00\x01\x00\x00\x00\x00"
	list := "\x03" + "0\x00" + one + "\x00"
	body := "\x02insert\x00\x06\x00\x00\x00items\x00" + "\x04documents\x00" + size(4+len(list)) + list + "\x02$db\x00\x05\x00\x00\x00test\x00\x00"
	message := "\x00\x00\x00\x00\x00" + size(4+len(body)) + body
	head := size(16+len(message)) + size(7) + size(0) + size(2013)
	if _, err := io.WriteString(connection, head+message); err != nil {
		t.Fatal(err)
	}
	answer := make([]byte, 16)
	if _, err := io.ReadFull(bufio.NewReader(connection), answer); err != nil {
		t.Fatal(err)
	}
	if got := binary.LittleEndian.Uint32(answer[8:]); got != 7 {
		t.Fatalf("it answers %d", got)
	}
	return int(binary.LittleEndian.Uint32(answer))
}

func size(n int) string {
	bytes := make([]byte, 4)
	binary.LittleEndian.PutUint32(bytes, uint32(n))
	return string(bytes)
}

func TestASetIsPlayed(t *testing.T) {
	set := New(t, 3)
	hosts := regexp.MustCompile(`127\.0\.0\.1:\d+`).FindAllString(set.URI(), -1)
	if len(hosts) != 3 {
		t.Fatal(set.URI())
	}
	fine := insert(t, hosts[0])
	if refused := insert(t, hosts[1]); refused <= fine {
		t.Fatalf("a secondary answers %d bytes, and the primary %d", refused, fine)
	}
	set.Elect(1)
	if now := insert(t, hosts[1]); now != fine {
		t.Fatalf("the new primary answers %d bytes, and not %d", now, fine)
	}
	set.Check(t)
}

func TestVerdictsAreTold(t *testing.T) {
	set := NewPlan(t, "set rs 1")
	names := map[string]bool{}
	for _, verdict := range set.Verdicts() {
		names[verdict.Name] = true
	}
	if !names["lost-writes"] || !names["retries"] {
		t.Fatal(names)
	}
	if set.Picture() == "" {
		t.Fatal("no picture")
	}
}
