module driver

go 1.19

require (
	rbac/clients/go v0.0.0
	rbac/clients/go/rbacclient v0.0.0
	rbac/clients/go/rbacreplica v0.0.0
)

replace (
	rbac/clients/go => ../../../../clients/go
	rbac/clients/go/rbacclient => ../../../../clients/go/rbacclient
	rbac/clients/go/rbacreplica => ../../../../clients/go/rbacreplica
)
