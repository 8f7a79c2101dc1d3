module rbac/clients/go/rbacclient

go 1.19
