"""An office on several machines: three members of etcd and three nodes."""
