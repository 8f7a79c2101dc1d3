module rbac/clients/go

go 1.19
