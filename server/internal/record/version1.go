package record

import (
	"fmt"
	"strings"

	"rbac/clients/go/rbacoffice"

	"rbac-node/internal/api"
	"rbac-node/internal/limits"
)

// smallerLimits are those of an office of version 1 that are smaller than librbac's, in the order in which the program compares them.
var smallerLimits = []struct {
	kind  string
	table rbacoffice.Table
	most  int
}{
	{"user", rbacoffice.Users, limits.Of("user", 1)}, {"role", rbacoffice.Roles, limits.Of("role", 1)},
	{"edge", rbacoffice.Inheritances, limits.Of("edge", 1)},
}

// answerInVersion1 does a command as the program does over an office of version 1, which has smaller limits than librbac, and no locks.
// What librbac does and the program doesn't is taken back.
func (r *rerun) answerInVersion1(request string) (string, error) {
	isLock := strings.HasPrefix(request, `{"fn":"lockUserAccount"`) || strings.HasPrefix(request, `{"fn":"unlockUserAccount"`)
	isFull := map[string]bool{}
	for _, limit := range smallerLimits {
		has, err := r.hasRow(limit.table, limit.most-1)
		if err != nil {
			return "", err
		}
		if has {
			isFull[limit.kind] = true
		}
	}
	if !isLock && len(isFull) == 0 {
		answer, err := r.office.Answer([]byte(request))
		return string(answer), err
	}
	before, err := r.rows()
	if err != nil {
		return "", err
	}
	answer, err := r.office.Answer([]byte(request))
	if err != nil {
		return "", err
	}
	instead, err := r.insteadOf(answer, request, isLock, isFull["edge"])
	if err != nil || instead == "" {
		return string(answer), err
	}
	office, err := rbacoffice.Load(before.rows, 0)
	if err != nil {
		return "", err
	}
	r.office.Close()
	r.office = office
	return instead, nil
}

// insteadOf returns what the program answers in version 1 if that is something else than what librbac has answered.
func (r *rerun) insteadOf(answer []byte, request string, isLock, hasAllEdges bool) (string, error) {
	const tooMany = `{"code":32,"error":"TooMany","kind":"%s"}`
	code, _ := api.CodeOf(answer)
	switch {
	case isLock && code != 1 && code != 34: // These are about the request, which comes first.
		return `{"code":51,"error":"Version","version":1}`, nil
	case hasAllEdges && (code == 24 || code == 25) && strings.HasPrefix(request, `{"fn":"addInheritance"`):
		return fmt.Sprintf(tooMany, "edge"), nil
	case code != 0:
		return "", nil
	}
	for _, limit := range smallerLimits {
		if has, err := r.hasRow(limit.table, limit.most); err != nil || has {
			return fmt.Sprintf(tooMany, limit.kind), err
		}
	}
	return "", nil
}
