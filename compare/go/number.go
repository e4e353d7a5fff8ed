package main

import (
	"errors"
	"math"
	"strconv"
	"strings"
	"unicode"
)

// What is said of a number text without its white space: what strconv.ParseInt makes of it, in the base of its prefix, and what
// strconv.ParseFloat does. Both take separators.
func number(text string) string {
	text = strings.Map(dark, text)
	whole, err := strconv.ParseInt(text, 0, 64)
	integer := value(float64(whole), err)
	decimal, err := strconv.ParseFloat(text, 64)
	return integer + " " + value(decimal, err)
}

// The character itself, or none where it is white space.
func dark(character rune) rune {
	if unicode.IsSpace(character) {
		return -1
	}
	return character
}

// The bits of a value in hex, or `bad` for what is no number, or `range` for one that is too great.
func value(number float64, err error) string {
	switch {
	case err == nil:
		return strconv.FormatUint(math.Float64bits(number), 16)
	case errors.Is(err, strconv.ErrRange):
		return "range"
	}
	return "bad"
}
