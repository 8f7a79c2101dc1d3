module driver

go 1.19

require rbac/clients/go/rbacclient v0.0.0

replace rbac/clients/go/rbacclient => ../../../../clients/go/rbacclient
