module rbac-node

go 1.19

require (
	github.com/coreos/go-systemd v22.3.2+incompatible
	github.com/mattn/go-sqlite3 v1.14.16
	github.com/prometheus/client_golang v1.14.0
	go.etcd.io/etcd v3.4.23+incompatible
	go.uber.org/zap v1.23.0
	golang.org/x/crypto v0.4.0
	golang.org/x/sync v0.1.0
	google.golang.org/grpc v1.33.3
	gopkg.in/square/go-jose.v2 v2.6.0
	rbac/clients/go v0.0.0
)

replace rbac/clients/go => ../clients/go

require (
	github.com/beorn7/perks v1.0.1 // indirect
	github.com/cespare/xxhash/v2 v2.1.1 // indirect
	github.com/coreos/go-semver v0.3.0 // indirect
	github.com/coreos/pkg v0.0.0 // indirect
	github.com/gogo/protobuf v1.3.2 // indirect
	github.com/golang/protobuf v1.3.5 // indirect
	github.com/google/uuid v1.3.0 // indirect
	github.com/matttproud/golang_protobuf_extensions v1.0.1 // indirect
	github.com/prometheus/client_model v0.3.0 // indirect
	github.com/prometheus/common v0.39.0 // indirect
	github.com/prometheus/procfs v0.8.0 // indirect
	go.uber.org/atomic v1.10.0 // indirect
	go.uber.org/multierr v1.6.0 // indirect
	golang.org/x/net v0.7.0 // indirect
	golang.org/x/sys v0.3.0 // indirect
	golang.org/x/text v0.7.0 // indirect
	google.golang.org/genproto v0.0.0 // indirect
	google.golang.org/protobuf v1.28.1 // indirect
)
