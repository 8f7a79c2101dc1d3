package rbacclient

import (
	"encoding/hex"
	"strings"
	"testing"
)

// The digests of FIPS 202's example of no text, and of texts around the length of a block, as Python's hashlib computes them.
func TestSHA3(t *testing.T) {
	for _, test := range []struct{ name, text, want string }{
		{"nothing", "", "a7ffc6f8bf1ed76651c14756a061d662f580ff4de43b49fa82d80a4b80f8434a"},
		{"a name of a session", "00112233445566778899aabbccddeeff", "05079ffa5a3024b9424595e8940b640ee9221a1172c71fd00feb627ebd7dd3d3"},
		{"UTF-8", "s\u00e9ssion", "6f1200d5903d8528acc58dc49330fcc768e30fd780a01e6045a1eec0dd0e8245"},
		{"135 bytes", strings.Repeat("x", 135), "c150125edc74b56fb5cbfdd024fabe20ea5a99bd3c97305bbf7cb55885c106fe"},
		{"136 bytes", strings.Repeat("x", 136), "5bc276bac9c582508b8fa9b3949e7ed9b6e584ee4d2925b29a426b9931ba1486"},
		{"137 bytes", strings.Repeat("x", 137), "2f25a6351abe05e289a0a3e65fef42db7d5fc314936bdee4f6d54d04fb20a609"},
		{"272 bytes", strings.Repeat("x", 272), "f0759f9d5c3f598bcb2a85480f30bec337e407bc659d9427363a8810718b29ae"},
	} {
		t.Run(test.name, func(t *testing.T) {
			sum := sha3Sum256([]byte(test.text))
			if got := hex.EncodeToString(sum[:]); got != test.want {
				t.Errorf("got %s, want %s", got, test.want)
			}
			if got := SessionDigest(test.text); got != test.want[:32] {
				t.Errorf("the digest is %s, want %s", got, test.want[:32])
			}
		})
	}
}

func BenchmarkSessionDigest(b *testing.B) {
	name := strings.Repeat("0", 32)
	for i := 0; i < b.N; i++ {
		SessionDigest(name)
	}
}
