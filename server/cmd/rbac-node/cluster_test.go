package main

import (
	"flag"
	"strings"
	"testing"
)

func TestClusterCheck(t *testing.T) {
	for _, one := range []struct {
		name, words, missing string
	}{
		{"as little as possible", "--data d", ""},
		{"certificates and an authority", "--data d --peer-cert c --peer-key k --peer-ca a", ""},
		{"an open peer port, if that is wanted", "--data d --peer-cert c --peer-key k --peer-open", ""},
		{"callers, and a user of etcd", "--data d --callers c --etcd https://a:1,https://b:1 --etcd-user u", ""},
		{"callers, and a certificate for etcd", "--data d --callers c --etcd https://a:1 --etcd-cert c --etcd-key k", ""},
		{"callers, and an etcd that others don't reach", "--data d --callers c --etcd http://127.0.0.1:1 --etcd-open", ""},
		{"callers, and nobody that etcd knows", "--data d --callers c --etcd https://a:1", "--etcd-user"},
		{"callers, and etcd without TLS", "--data d --callers c --etcd https://a:1,http://b:1 --etcd-user u", "https"},
		{"no folder", "", "--data"},
		{"a name with a slash", "--data d --name a/b", "--name"},
		{"an open peer port", "--data d --peer-cert c --peer-key k", "--peer-ca"},
		{"no connection", "--data d --connections 0", "--connections"},
		{"more connections than descriptors", "--data d --connections 2000000", "--connections"},
		{"snapshots after nothing", "--data d --every 0", "--every"},
		{"snapshots after no bytes", "--data d --every-bytes 0", "--every-bytes"},
		{"a replay that may never wait", "--data d --hang-timeout 0s", "--hang-timeout"},
		{"parts of a record that end before they begin", "--data d --record-part -1", "--record-part"},
	} {
		t.Run(one.name, func(t *testing.T) {
			common, s := &settings{}, &clusterSettings{}
			s.common = common
			flags := flag.NewFlagSet("", flag.ContinueOnError)
			common.define(flags)
			s.define(flags)
			if err := flags.Parse(strings.Fields("--name a " + one.words)); err != nil {
				t.Fatal(err)
			}
			err := common.check()
			if err == nil {
				err = s.check()
			}
			if one.missing == "" && err != nil || one.missing != "" && (err == nil || !strings.Contains(err.Error(), one.missing)) {
				t.Errorf("%v", err)
			}
		})
	}
}
