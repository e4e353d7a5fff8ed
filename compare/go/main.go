// Reads texts by Go's own rules: the documented reading. The argument says what they are, `literals` or `numbers`. A line of the
// input is a text in hex, or `-` for no bytes. Its line of the output is what is said of it.
package main

import (
	"bufio"
	"encoding/hex"
	"fmt"
	"log"
	"os"
	"strings"
)

// How no bytes are written.
const none = "-"

// No line is longer.
const longest = 1 << 20

// What reads the texts that the arguments say.
func reader() func(string) string {
	if len(os.Args) == 2 {
		switch os.Args[1] {
		case "literals":
			return literal
		case "numbers":
			return number
		}
	}
	log.Fatal("usage: read literals | numbers")
	return nil
}

func main() {
	read := reader()
	lines := bufio.NewScanner(os.Stdin)
	lines.Buffer(nil, longest)
	answers := bufio.NewWriter(os.Stdout)
	for lines.Scan() {
		text, err := hex.DecodeString(strings.TrimPrefix(lines.Text(), none))
		if err != nil {
			log.Fatal(err)
		}
		fmt.Fprintln(answers, read(string(text)))
	}
	if err := lines.Err(); err != nil {
		log.Fatal(err)
	}
	if err := answers.Flush(); err != nil {
		log.Fatal(err)
	}
}
