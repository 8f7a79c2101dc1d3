package api

// Arguments are what a call names. What its function has no key for is empty.
type Arguments struct {
	User, Role, Object, Operation, Session, Ascendant, Descendant, Set, CSV string
	Roles                                                                   []string
	// Cardinality has the digits of a number.
	Cardinality string
}

// place returns where the text at a key is kept, or nil if there is no text at that key.
func (a *Arguments) place(key string) *string {
	switch key {
	case "user":
		return &a.User
	case "role":
		return &a.Role
	case "object":
		return &a.Object
	case "operation":
		return &a.Operation
	case "session":
		return &a.Session
	case "asc":
		return &a.Ascendant
	case "desc":
		return &a.Descendant
	case "set":
		return &a.Set
	case "csv":
		return &a.CSV
	}
	return nil
}

// Text returns the text at a key.
func (a *Arguments) Text(key string) string {
	if place := a.place(key); place != nil {
		return *place
	}
	return ""
}

// SetText sets the text at a key.
func (a *Arguments) SetText(key, text string) {
	if place := a.place(key); place != nil {
		*place = text
	}
}

// setTexts sets texts: keys, each followed by its text.
func (a *Arguments) setTexts(pairs []string) {
	for i := 0; i+1 < len(pairs); i += 2 {
		a.SetText(pairs[i], pairs[i+1])
	}
}

// Has reports whether the function of a call has a key.
func (c *Call) Has(key string) bool {
	for _, one := range Keys(c.Function) {
		if one == key {
			return true
		}
	}
	return false
}

// LineWith returns the line of a call with another text at a key. The function has to be one without a number.
func (c *Call) LineWith(key, text string) ([]byte, error) {
	other := *c
	other.SetText(key, text)
	err := other.write()
	return other.Line, err
}
