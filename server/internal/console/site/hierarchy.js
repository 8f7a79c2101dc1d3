/** The hierarchy of roles, and what separation of duty sets forbid through it. */

/** The roles that inherit, with what each includes. */
export class Hierarchy {
    /** Takes the immediate inheritances, as a list of the front has them. */
    constructor(inheritances) {
        this.juniors = new Map();
        this.seniors = new Map();
        const add = (map, from, to) => map.set(from, [...(map.get(from) ?? []), to]);
        for (const { asc, desc } of inheritances) {
            add(this.juniors, asc, desc);
            add(this.seniors, desc, asc);
        }
    }

    /** Returns a role and all roles that it inherits from. */
    below(role) {
        return reached(this.juniors, role);
    }

    /** Returns, for each role that includes members of a set, which they are: itself or by inheritance. */
    included({ roles }) {
        const found = new Map(roles.map((one) => [one, []]));
        for (const member of roles) {
            for (const role of reached(this.seniors, member)) {
                found.set(role, [...(found.get(role) ?? []), member]);
            }
        }
        return found;
    }

    /** Returns the roles that include by themselves as many members of a set as it forbids, members first. */
    impossible(set) {
        return this.barred(set, []);
    }

    /** Returns the roles that nobody can have together with some members of a set, members first. */
    barred(set, held) {
        const has = new Set(held);
        const isMember = (role) => set.roles.includes(role);
        return [...this.included(set)]
            .filter(([role, members]) => !has.has(role) && held.length + members.filter((one) => !has.has(one)).length >= set.cardinality)
            .map(([role]) => role)
            .sort((a, b) => isMember(b) - isMember(a) || (a < b ? -1 : 1));
    }

    /** Returns the first of some sets of which a role includes too many members, or undefined. */
    violated(sets, role) {
        const all = this.below(role);
        return sets.find(({ roles, cardinality }) => roles.filter((one) => all.has(one)).length >= cardinality);
    }
}

function reached(map, role) {
    const found = new Set([role]);
    for (const one of found) {
        (map.get(one) ?? []).forEach((next) => found.add(next));
    }
    return found;
}
