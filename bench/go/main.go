// The work of bench_tree and of bench_hash's nodes, with golang.org/x/mod/sumdb/tlog. It prints the same lines.
package main

import (
	"encoding/binary"
	"fmt"
	"os"
	"strconv"
	"time"

	"golang.org/x/mod/sumdb/tlog"
)

// How many proofs of each kind are made.
const proofs = 10000

// Numbers that look random and are the same in every run.
type draws struct{ state uint64 }

func (d *draws) below(bound int64) int64 {
	d.state = d.state*6364136223846793005 + 1442695040888963407
	return int64(d.state>>33) % bound
}

// The stored hashes of a tree, in memory.
type store []tlog.Hash

func (s store) ReadHashes(indexes []int64) ([]tlog.Hash, error) {
	hashes := make([]tlog.Hash, len(indexes))
	for i, x := range indexes {
		hashes[i] = s[x]
	}
	return hashes, nil
}

// The entry at a place: its number, in eight bytes.
type entry [8]byte

func (e *entry) at(place int64) []byte {
	binary.BigEndian.PutUint64(e[:], uint64(place))
	return e[:]
}

func must(err error) {
	if err != nil {
		fmt.Fprintln(os.Stderr, err)
		os.Exit(1)
	}
}

func ms(start time.Time) float64 {
	return float64(time.Since(start).Nanoseconds()) / 1e6
}

func grown(count int64) store {
	var s store
	var e entry
	for i := int64(0); i < count; i++ {
		hashes, err := tlog.StoredHashes(i, e.at(i), s)
		must(err)
		s = append(s, hashes...)
	}
	return s
}

func inclusion(s store, count int64, root tlog.Hash) (accepted, digests int) {
	d := draws{1}
	var e entry
	for i := 0; i < proofs; i++ {
		place := d.below(count)
		p, err := tlog.ProveRecord(count, place, s)
		must(err)
		if tlog.CheckRecord(p, count, root, place, tlog.RecordHash(e.at(place))) == nil {
			accepted++
		}
		digests += len(p)
	}
	return
}

type earlier struct {
	count int64
	root  tlog.Hash
}

func earlierTrees(s store, count int64) []earlier {
	d := draws{1}
	var trees []earlier
	for i := 0; i < proofs; i++ {
		n := 1 + d.below(count)
		root, err := tlog.TreeHash(n, s)
		must(err)
		trees = append(trees, earlier{n, root})
	}
	return trees
}

func consistency(s store, trees []earlier, count int64, root tlog.Hash) (accepted, digests int) {
	for _, t := range trees {
		p, err := tlog.ProveTree(count, t.count, s)
		must(err)
		if tlog.CheckTree(p, count, root, t.count, t.root) == nil {
			accepted++
		}
		digests += len(p)
	}
	return
}

func tree(count int64) {
	start := time.Now()
	s := grown(count)
	msGrow := ms(start)
	root, err := tlog.TreeHash(count, s)
	must(err)

	start = time.Now()
	paths, pathDigests := inclusion(s, count, root)
	msInclusion := ms(start)

	trees := earlierTrees(s, count)
	start = time.Now()
	grows, growDigests := consistency(s, trees, count, root)
	msConsistency := ms(start)

	fmt.Printf("leaves %d\n", count)
	fmt.Printf("root %x\n", root[:])
	fmt.Printf("inclusion %d accepted, %d digests\n", paths, pathDigests)
	fmt.Printf("consistency %d accepted, %d digests\n", grows, growDigests)
	fmt.Printf("ms-grow %.3f\n", msGrow)
	fmt.Printf("ms-inclusion %.3f\n", msInclusion)
	fmt.Printf("ms-consistency %.3f\n", msConsistency)
}

// Four chains, in each of which the next digest is the node over two of the last.
func nodes(count int64) {
	steps := (count + 3) / 4
	var c [4]tlog.Hash
	for i := range c {
		for j := range c[i] {
			c[i][j] = byte(i + 1)
		}
	}
	start := time.Now()
	for i := int64(0); i < steps; i++ {
		for j := range c {
			c[j] = tlog.NodeHash(c[j], c[j])
		}
	}
	each := ms(start) * 1e6 / (4 * float64(steps))
	root := tlog.NodeHash(tlog.NodeHash(c[0], c[1]), tlog.NodeHash(c[2], c[3]))
	fmt.Printf("digest %x\n", root[:])
	fmt.Printf("ns-node %.2f\n", each)
}

func main() {
	if len(os.Args) != 3 {
		must(fmt.Errorf("it takes: tree N or nodes N"))
	}
	count, err := strconv.ParseInt(os.Args[2], 10, 64)
	must(err)
	if count < 1 {
		must(fmt.Errorf("the count must be positive"))
	}
	switch os.Args[1] {
	case "tree":
		tree(count)
	case "nodes":
		nodes(count)
	default:
		must(fmt.Errorf("it takes: tree N or nodes N"))
	}
}
