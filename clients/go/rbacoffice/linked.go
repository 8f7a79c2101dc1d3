package rbacoffice

// The server has a copy of this package without this file: there the library is a part of the package.

// #cgo LDFLAGS: -lrbac
import "C"
