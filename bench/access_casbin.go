// The decisions of `access` by Casbin: it reads policy.csv and questions.csv of the folder that is
// given, and prints lines of a label, how many answers were right, and the nanoseconds that they took.
// `enforce` asks the plain enforcer. The cached one is asked the same twice: at `cached/first` its
// cache is empty, and at `cached/again` it has every answer.
package main

import (
	"bufio"
	"fmt"
	"os"
	"strings"
	"time"

	"github.com/casbin/casbin/v2"
	"github.com/casbin/casbin/v2/model"
	fileadapter "github.com/casbin/casbin/v2/persist/file-adapter"
)

// A role has what its juniors have, and a user what the user's role has.
const rules = `
[request_definition]
r = user, object, operation

[policy_definition]
p = role, object, operation

[role_definition]
g = _, _

[policy_effect]
e = some(where (p.eft == allow))

[matchers]
m = g(r.user, p.role) && r.object == p.object && r.operation == p.operation
`

// The number of questions that are asked: each takes milliseconds.
const questions = 2000

// The rules, and the adapter that reads the policy of the folder.
func readPolicy(folder string) (model.Model, *fileadapter.Adapter) {
	rules, err := model.NewModelFromString(rules)
	if err != nil {
		panic(err)
	}
	return rules, fileadapter.NewAdapter(folder + "/policy.csv")
}

// The first questions of the folder, each as user, operation, object and answer.
func readQuestions(folder string) [][]string {
	file, err := os.Open(folder + "/questions.csv")
	if err != nil {
		panic(err)
	}
	defer file.Close()
	var asked [][]string
	scanner := bufio.NewScanner(file)
	for scanner.Scan() && len(asked) < questions {
		asked = append(asked, strings.Split(scanner.Text(), ","))
	}
	return asked
}

// Asks the questions, and prints the results.
func ask(label string, asked [][]string, enforce func(...interface{}) (bool, error)) {
	right := 0
	start := time.Now()
	for _, it := range asked {
		allowed, err := enforce("u"+it[0], it[2], it[1])
		if err == nil && allowed == (it[3] == "1") {
			right++
		}
	}
	fmt.Println(label, right, time.Since(start).Nanoseconds())
}

func main() {
	folder := os.Args[1]
	asked := readQuestions(folder)
	plain, err := casbin.NewEnforcer(readPolicy(folder))
	if err != nil {
		panic(err)
	}
	ask("enforce", asked, plain.Enforce)
	cached, err := casbin.NewCachedEnforcer(readPolicy(folder))
	if err != nil {
		panic(err)
	}
	ask("cached/first", asked, cached.Enforce)
	ask("cached/again", asked, cached.Enforce)
}
