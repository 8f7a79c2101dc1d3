package endpoints

import (
	"bytes"
	"context"
	"fmt"
	"net/http"
	"os/exec"
	"strings"
	"time"
	"unicode"

	"rbac-node/internal/api"
	"rbac-node/internal/state"
)

const (
	// mostDrawn is how many roles a picture has at most: Graphviz takes a minute for a thousand.
	mostDrawn = 150
	// drawingTimeout is how long Graphviz may take for a picture, and readingTimeout how long a record may be read.
	drawingTimeout, readingTimeout = 10 * time.Second, 30 * time.Second
	drawer                         = "dot"
)

// drawing is held by the one picture that is being drawn.
var drawing = make(chan struct{}, 1)

// A pictureQuery says what a picture shows. Without anything it is the whole.
type pictureQuery struct {
	// role is the role in the middle, or the one at the end of the ways from other roles.
	role string
	from []string
	// user and permission stand at both ends of such ways.
	user, operation, object string
}

// picture answers a picture of roles and of separation of duty sets, which Graphviz draws.
func (e *Endpoints) picture(r *request) (int, error) {
	s, err := e.knownTo(r, api.Lists)
	if err != nil {
		return 0, err
	}
	query, err := readPictureQuery(r.URL.RawQuery)
	if err != nil {
		return 0, err
	}
	program, err := exec.LookPath(drawer)
	if err != nil {
		return 0, errNotHere
	}
	part, numbers, err := query.part(s)
	if err != nil {
		return 0, err
	}
	r.isAt(numbers)
	r.visit.Done()
	drawn, err := draw(r.ctx, program, query.text(part))
	if err != nil {
		return 0, err
	}
	header := r.w.Header()
	header.Set("Content-Security-Policy", "default-src 'none'; style-src 'unsafe-inline'")
	header.Set("X-Content-Type-Options", "nosniff")
	header.Set("Cache-Control", "no-store")
	return api.WriteAs(r.w, http.StatusOK, "image/svg+xml", drawn), nil
}

func readPictureQuery(text string) (query pictureQuery, err error) {
	texts := map[string]*string{"role": &query.role, "user": &query.user, "operation": &query.operation, "object": &query.object}
	err = readQuery(text, func(key, value string) error {
		place, isText := texts[key]
		switch {
		case isText:
			*place = value
		case key == "from":
			query.from = strings.Split(value, nameSeparator)
		default:
			return notRead("a picture has no key %s", echoed(key))
		}
		return nil
	})
	return query, err
}

// part returns the part of the role graph that is to be drawn, and the numbers of that moment.
func (q pictureQuery) part(s *state.State) (part state.Part, numbers state.Numbers, err error) {
	hasRole := true
	err = s.Look(func(v *state.View) {
		numbers = v.Numbers
		switch hasRole = q.role == "" || v.HasRole(q.role); {
		case !hasRole:
		case q.role == "":
			part = v.Whole()
		case len(q.from) > 0:
			part = v.Between(q.from, q.role)
		default:
			part = v.Graph().Around(q.role, mostDrawn)
		}
	})
	switch {
	case err != nil:
		return part, numbers, err
	case !hasRole:
		return part, numbers, api.Refusal{Status: http.StatusConflict, Code: 4, Name: "NoRole"}
	case len(part.Roles) > mostDrawn:
		return part, numbers, api.BadRequestSince(http.StatusRequestEntityTooLarge, "a picture has at most %d roles", mostDrawn)
	}
	return part, numbers, nil
}

// draw returns what Graphviz draws. It draws one picture after another.
func draw(ctx context.Context, program, text string) ([]byte, error) {
	within, cancel := context.WithTimeout(ctx, drawingTimeout)
	defer cancel()
	select {
	case drawing <- struct{}{}:
		defer func() { <-drawing }()
	case <-within.Done():
		return nil, within.Err()
	}
	command := exec.CommandContext(within, program, "-Tsvg")
	command.Stdin = strings.NewReader(text)
	var drawn bytes.Buffer
	command.Stdout = &drawn
	if err := command.Run(); err != nil {
		return nil, fmt.Errorf("%s: %w", program, err)
	}
	return drawn.Bytes(), nil
}

func (q pictureQuery) text(part state.Part) string {
	var out strings.Builder
	out.WriteString("digraph roles {\nbgcolor=transparent; rankdir=TB; nodesep=0.4; ranksep=0.5;\n" +
		`node [fontname="sans-serif", fontsize=12, fillcolor=white]; edge [arrowsize=0.8];` + "\n")
	ids := map[string]string{}
	for i, role := range part.Roles {
		ids[role] = fmt.Sprintf("r%d", i)
		color := "white"
		if role == q.role {
			color = "lightskyblue"
		}
		fmt.Fprintf(&out, "%s [shape=box, style=\"rounded,filled\", fillcolor=%s, label=%s];\n", ids[role], color, quoted(role))
	}
	for _, edge := range part.Edges {
		fmt.Fprintf(&out, "%s -> %s;\n", ids[edge[0]], ids[edge[1]])
	}
	if part.Left > 0 {
		fmt.Fprintf(&out, "left [shape=plaintext, label=\"and %d more\"];\n", part.Left)
	}
	if len(q.from) > 0 {
		q.writeEnds(&out, ids)
		return out.String() + "}\n"
	}
	writeSets(&out, "s", "", part.Static, ids)
	writeSets(&out, "d", `style=filled, fillcolor=mistyrose, `, part.Dynamic, ids)
	return out.String() + "}\n"
}

// writeEnds writes what is at both ends of the ways between roles.
func (q pictureQuery) writeEnds(out *strings.Builder, ids map[string]string) {
	if q.user != "" {
		fmt.Fprintf(out, "user [shape=ellipse, style=filled, label=%s];\n", quoted(q.user))
		for _, role := range q.from {
			if id, has := ids[role]; has {
				fmt.Fprintf(out, "user -> %s [style=dashed];\n", id)
			}
		}
	}
	if id, has := ids[q.role]; has && q.object != "" {
		fmt.Fprintf(out, "permission [shape=note, style=filled, label=%s];\n", quoted(q.operation, q.object))
		fmt.Fprintf(out, "%s -> permission [style=dashed];\n", id)
	}
}

// writeSets writes sets with dashed lines to those of their members that are drawn.
func writeSets(out *strings.Builder, prefix, style string, sets []state.NamedSet, ids map[string]string) {
	kinds := map[string]string{"s": "static", "d": "dynamic"}
	for i, set := range sets {
		about := fmt.Sprintf("%s set, cardinality %d", kinds[prefix], set.Cardinality)
		fmt.Fprintf(out, "%s%d [shape=ellipse, color=firebrick, %slabel=%s];\n", prefix, i, style, quoted(set.Name, about))
		for _, role := range set.Roles {
			if id, has := ids[role]; has {
				fmt.Fprintf(out, "%s%d -> %s [dir=none, style=dashed, color=firebrick];\n", prefix, i, id)
			}
		}
	}
}

// quoted returns some texts as a label, each on a line of its own. Graphviz would read a backslash, a quotation mark and an
// ampersand as something else.
func quoted(texts ...string) string {
	escape := strings.NewReplacer(`\`, `\\`, `"`, `\"`, `&`, `&amp;`)
	lines := make([]string, len(texts))
	for i, text := range texts {
		lines[i] = escape.Replace(shown(text))
	}
	return `"` + strings.Join(lines, `\n`) + `"`
}

// shown returns a name with a code in the place of each character that can't be seen, or that changes how others are shown.
func shown(name string) string {
	var out strings.Builder
	for _, letter := range name {
		if letter == ' ' || unicode.IsGraphic(letter) && !unicode.Is(unicode.Zs, letter) && !unicode.Is(unicode.Variation_Selector, letter) {
			out.WriteRune(letter)
		} else {
			fmt.Fprintf(&out, "[U+%04X]", letter)
		}
	}
	return out.String()
}
