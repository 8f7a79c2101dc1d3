package main

import (
	"flag"
	"fmt"
	"strings"

	"rbac-node/internal/front"
	"rbac-node/internal/setup"
)

// prepareSetup defines the flags of `setup`, and returns what makes the files with which a front has callers and TLS.
func prepareSetup(flags *flag.FlagSet) func([]string) error {
	var o setup.Options
	var hosts string
	flags.StringVar(&hosts, "dns", "", "names and addresses by which clients find this machine, as `NAME,..`; without it there is no TLS")
	flags.StringVar(&o.Folder, "folder", "/etc/rbac", "`folder` in which the files are made")
	flags.StringVar(&o.Listen, "listen", "", "where clients connect, as `ADDRESS,..`: each HOST:PORT or unix:PATH "+
		"(default: unix:/run/rbac/OFFICE.sock, and with --dns also 0.0.0.0:8443)")
	flags.BoolVar(&o.WantsRequest, "csr", false, "make a request for a certificate, which an authority is to sign")
	flags.StringVar(&o.Group, "group", "rbac", "the `group` that may read the files if root makes them")
	return withArguments(1, func(arguments []string) error {
		o.Office = arguments[0]
		if hosts != "" {
			o.Hosts = strings.Split(hosts, ",")
		}
		return setUp(o)
	})
}

func setUp(o setup.Options) error {
	if o.Listen == "" {
		o.Listen = "unix:/run/rbac/" + o.Office + ".sock"
		if len(o.Hosts) > 0 {
			o.Listen += ",0.0.0.0:8443"
		}
	}
	addresses, err := front.ParseAddresses(o.Listen)
	if err != nil {
		return err
	}
	for _, address := range addresses {
		if !address.IsLocal() && len(o.Hosts) == 0 {
			return fmt.Errorf("%s can be reached by other machines: give --dns with the names by which they find this one", address)
		}
	}
	return setup.Run(o, stdout)
}
