package main

import (
	"encoding/hex"
	"strconv"
	"strings"
)

// What is said of a literal: `ok` and the text that it stands for, in hex, or `bad`.
func literal(bytes string) string {
	text, err := unquote(bytes)
	switch {
	case err != nil:
		return "bad"
	case text == "":
		return "ok " + none
	}
	return "ok " + hex.EncodeToString([]byte(text))
}

// What a literal stands for. It is what strconv.Unquote says, but where document 01 parts from Go:
//   - Between single quotes Go has no more than one character; document 01 has any number of them.
//   - Go drops CR from what stands between backquotes; document 01 keeps it.
func unquote(literal string) (string, error) {
	text, err := strconv.Unquote(literal)
	switch {
	case err != nil && len(literal) > 1 && literal[0] == '\'' && literal[len(literal)-1] == '\'':
		return unquoteEach(literal[1 : len(literal)-1])
	case err == nil && literal[0] == '`':
		return literal[1 : len(literal)-1], nil
	}
	return text, err
}

// What the characters between single quotes stand for, each as strconv.Unquote reads it alone.
func unquoteEach(characters string) (string, error) {
	var text strings.Builder
	for characters != "" {
		_, _, rest, err := strconv.UnquoteChar(characters, '\'')
		if err != nil {
			return "", err
		}
		one, err := strconv.Unquote("'" + characters[:len(characters)-len(rest)] + "'")
		if err != nil {
			return "", err
		}
		text.WriteString(one)
		characters = rest
	}
	return text.String(), nil
}
