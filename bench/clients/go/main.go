// Command decide prints the median times of a decision in Go: by net/http, and by the client.
package main

import (
	"bytes"
	"context"
	"encoding/json"
	"fmt"
	"io"
	"log"
	"net/http"
	"os"
	"sort"
	"time"

	"rbac/clients/go/rbacclient"
)

const warm, count = 1_000, 10_000

func main() {
	address, session := os.Getenv("RBAC"), os.Getenv("SESSION")
	plain := http.Client{Timeout: time.Minute}
	office, err := rbacclient.New(rbacclient.Config{Addresses: []string{address}, Timeout: time.Minute})
	if err != nil {
		log.Fatal(err)
	}
	byHand := func() bool {
		body, _ := json.Marshal(map[string]string{"session": session, "operation": "open", "object": "vault"})
		answer, err := plain.Post(address+"/v1/checkAccess", "application/json", bytes.NewReader(body))
		if err != nil {
			return false
		}
		defer answer.Body.Close()
		text, err := io.ReadAll(io.LimitReader(answer.Body, 100))
		return err == nil && answer.StatusCode == http.StatusOK && string(text) == `{"ok":true,"value":true}`
	}
	byClient := func() bool { return office.May(context.Background(), session, "open", "vault") }
	var times [2][]float64
	for i := 0; i < warm+count; i++ {
		for way, ask := range []func() bool{byHand, byClient} {
			start := time.Now()
			if !ask() {
				log.Fatal("denied")
			}
			if i >= warm {
				times[way] = append(times[way], float64(time.Since(start).Nanoseconds())/1000)
			}
		}
	}
	for _, one := range times {
		sort.Float64s(one)
	}
	fmt.Printf("Go, net/http %.1f %.1f\n", times[0][count/2], times[1][count/2])
}
