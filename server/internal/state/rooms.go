package state

import (
	"rbac/clients/go/rbacoffice"

	"rbac-node/internal/limits"
)

// A Room is how many there are of a kind, and how many there may be.
type Room struct {
	Count int    `json:"count"`
	Kind  string `json:"kind"`
	Limit int    `json:"limit"`
}

// The kinds of which the front says more: sessions, and those that are counted for a single set or session.
const sessionKind, memberKind, ActiveRoleKind = "session", "member", "activeRole"

// MostActivated is how many roles may be activated in a session.
var MostActivated = limits.Of(ActiveRoleKind, limits.Current)

// IsOfOne reports whether a room is that of a single set or session, and not of the whole office.
func (r Room) IsOfOne() bool { return r.Kind == memberKind || r.Kind == ActiveRoleKind }

// IsOfSessions reports whether a room is that of sessions.
func (r Room) IsOfSessions() bool { return r.Kind == sessionKind }

// Rooms returns how many there are of each kind that an office limits, and not an import. Members are counted for the set that has most,
// and activated roles for the session that has most. No large table is read for that.
func (v *View) Rooms() []Room {
	statics, dynamics := firsts(v.all(rbacoffice.StaticCardinalities)), firsts(v.all(rbacoffice.DynamicCardinalities))
	members := v.most(rbacoffice.StaticMembers, statics)
	if most := v.most(rbacoffice.DynamicMembers, dynamics); most > members {
		members = most
	}
	counts := map[string]int{
		"user": v.count(rbacoffice.Users), "role": v.count(rbacoffice.Roles), "object": v.count(rbacoffice.Objects),
		"permission": v.count(rbacoffice.Permissions), "grant": v.count(rbacoffice.Grants), "assignment": v.count(rbacoffice.Assignments),
		"edge": v.count(rbacoffice.Inheritances), "ssdSet": len(statics), "dsdSet": len(dynamics), memberKind: members,
		sessionKind: v.count(rbacoffice.Sessions), ActiveRoleKind: v.mostActivated(),
	}
	rooms := make([]Room, 0, len(counts))
	for _, kind := range limits.Kinds() {
		if count, is := counts[kind.Name]; is {
			rooms = append(rooms, Room{count, kind.Name, kind.In(limits.Current)})
		}
	}
	return rooms
}

// most returns how many rows a table has at most with one of some first names.
func (v *View) most(table rbacoffice.Table, names []string) (most int) {
	for _, name := range names {
		if start, end := v.places(table, name); end-start > most {
			most = end - start
		}
	}
	return most
}

// mostActivated returns how many roles are activated in the session that has most.
func (v *View) mostActivated() int {
	names := make([]string, 0, len(v.state.sessions))
	for name := range v.state.sessions {
		names = append(names, name)
	}
	return v.most(rbacoffice.ActivatedRoles, names)
}
