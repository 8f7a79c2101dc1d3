package rbacoffice

import (
	"errors"
	"fmt"
	"math/rand"
	"reflect"
	"testing"
)

// The closure of the rows of an office is the one that the library has made of its inheritances.
func TestClosure(t *testing.T) {
	for seed := int64(0); seed < 20; seed++ {
		rng, office := rand.New(rand.NewSource(seed)), open(t)
		const many = 12
		for i := 0; i < many; i++ {
			if err := office.Call("addRole", map[string]interface{}{"role": fmt.Sprintf("r%02d", i)}, nil); err != nil {
				t.Fatal(err)
			}
		}
		for i := 0; i < 2*many; i++ {
			edge := map[string]interface{}{"asc": fmt.Sprintf("r%02d", rng.Intn(many)), "desc": fmt.Sprintf("r%02d", rng.Intn(many))}
			var refused *RefusedError
			if err := office.Call("addInheritance", edge, nil); err != nil && !errors.As(err, &refused) {
				t.Fatal(err)
			}
		}
		rows, err := office.Rows()
		if err != nil {
			t.Fatal(err)
		}
		var pairs []Row
		for _, row := range rows {
			if row.Table == ClosurePairs {
				pairs = append(pairs, row)
			}
		}
		if found := Closure(rows); len(pairs) == 0 || !reflect.DeepEqual(found, pairs) {
			t.Fatalf("seed %d: %v and not %v", seed, found, pairs)
		}
	}
	stranger := []Row{{Table: Roles, Names: [3]string{"a"}}, {Table: Inheritances, Names: [3]string{"a", "b"}}}
	if found := Closure(stranger); len(found) != 0 {
		t.Errorf("an inheritance of a role that isn't there: %v", found)
	}
}
