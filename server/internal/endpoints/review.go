package endpoints

import (
	"encoding/hex"
	"fmt"
	"strconv"
	"strings"

	"rbac-node/internal/api"
	"rbac-node/internal/recorded"
)

const (
	// mostReviewed is how many lines a review has at most. Its name is as long as a reason.
	mostReviewed = 1_000_000
	// mostReviewBytes is the most bytes of a request that ends a review.
	mostReviewBytes = 4096
	// sumBytes is how many bytes a SHA-256 digest has.
	sumBytes = 32
)

// A review is what is recorded of one that has ended: its name, the digest of its list, and how many lines of it were kept, removed
// and left open.
type review struct {
	Name    string
	Digest  string
	Kept    int
	Removed int
	Open    int
}

func (e *Endpoints) endReview(r *request) (int, error) {
	if err := r.may(api.NewOther(api.Review)); err != nil {
		return 0, err
	}
	ended, err := readReview(r)
	if err != nil {
		return 0, err
	}
	entry := api.NewEntry(api.Review, ended.text())
	if err := r.sign(entry); err != nil {
		return 0, err
	}
	number, err := e.office.Note(r.ctx, entry)
	if err != nil {
		return 0, err
	}
	return r.replyValue(struct {
		Number int64 `json:"number"`
	}{number})
}

func readReview(r *request) (ended review, err error) {
	body, err := api.ReadBody(r.Request, mostReviewBytes)
	if err != nil {
		return ended, err
	}
	fields, err := api.FieldsOf(string(body))
	if err != nil {
		return ended, err
	}
	if ended.Name, err = api.TextAt(fields, "review"); err != nil {
		return ended, err
	}
	if ended.Name == "" || !isReason(ended.Name) {
		return ended, notRead("review has 1 to %d bytes, and no control character or line separator", longestReason)
	}
	if ended.Digest, err = api.TextAt(fields, "sha256"); err != nil {
		return ended, err
	}
	if sum, err := hex.DecodeString(ended.Digest); err != nil || len(sum) != sumBytes || ended.Digest != strings.ToLower(ended.Digest) {
		return ended, notRead("sha256 has %d digits of 0 to 9 and a to f", 2*sumBytes)
	}
	for key, count := range map[string]*int{"kept": &ended.Kept, "removed": &ended.Removed, "open": &ended.Open} {
		if *count, err = strconv.Atoi(fields.At(key)); err != nil || *count < 0 || *count > mostReviewed {
			return ended, notRead("%s is a number from 0 to %d", key, mostReviewed)
		}
	}
	return ended, nil
}

// text returns the entry of a review as it is recorded. Its keys are in this order.
func (ended review) text() []byte {
	return fmt.Appendf(nil, `%s"review":%s,"sha256":"%s","kept":%d,"removed":%d,"open":%d}`, recorded.ReviewPrefix,
		api.AppendQuoted(nil, ended.Name), ended.Digest, ended.Kept, ended.Removed, ended.Open)
}
