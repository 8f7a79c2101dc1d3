package endpoints

import (
	"bytes"
	"encoding/json"
	"net/http"

	"rbac-node/internal/callers"
)

// caller answers who asks, and what that caller may do.
func (e *Endpoints) caller(r *request) (int, error) {
	value := struct {
		Caller string          `json:"caller"`
		Open   bool            `json:"open,omitempty"`
		Rights []callers.Grant `json:"rights"`
	}{Caller: r.visit.Name(), Open: r.visit == nil, Rights: []callers.Grant{}}
	grants, err := r.visit.Rights()
	if err != nil {
		return 0, err
	}
	for _, one := range grants {
		if len(one.Functions) > 0 {
			value.Rights = append(value.Rights, one)
		}
	}
	return r.replyValue(value)
}

func (r *request) replyValue(value any) (int, error) {
	var text bytes.Buffer
	encoder := json.NewEncoder(&text)
	encoder.SetEscapeHTML(false)
	err := encoder.Encode(struct {
		OK    bool `json:"ok"`
		Value any  `json:"value"`
	}{true, value})
	if err != nil {
		return 0, err
	}
	return r.reply(http.StatusOK, bytes.TrimSuffix(text.Bytes(), []byte("\n"))), nil
}
