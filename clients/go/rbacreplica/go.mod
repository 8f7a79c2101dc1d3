module rbac/clients/go/rbacreplica

go 1.19

require (
	rbac/clients/go v0.0.0
	rbac/clients/go/rbacclient v0.0.0
)

replace (
	rbac/clients/go => ../
	rbac/clients/go/rbacclient => ../rbacclient
)
