// Prints the Merkle root of a file, by Sia's own Go library over BLAKE2b-256: what bench/root compares `sia-v1 root` with.
package main

import (
	"bytes"
	"fmt"
	"log"
	"os"

	"github.com/NebulousLabs/merkletree"
	"golang.org/x/crypto/blake2b"
)

const segmentSize = 64

func main() {
	content, err := os.ReadFile(os.Args[1])
	if err != nil {
		log.Fatal(err)
	}
	hash, err := blake2b.New256(nil)
	if err != nil {
		log.Fatal(err)
	}
	root, err := merkletree.ReaderRoot(bytes.NewReader(content), hash, segmentSize)
	if err != nil {
		log.Fatal(err)
	}
	fmt.Printf("%x\n", root)
}
