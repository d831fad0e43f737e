package main

import (
	"fmt"
	"sort"
	"strings"
)

func main() {
	words := strings.Fields("the quick brown fox jumps over the lazy dog")
	counts := map[string]int{}
	for _, word := range words {
		counts[word]++
	}
	sort.Strings(words)
	fmt.Println(words, counts)
}
