package callers

import (
	"bytes"
	"crypto/ecdsa"
	"crypto/rand"
	"crypto/rsa"
	"crypto/x509"
	"encoding/base64"
	"encoding/json"
	"encoding/pem"
	"io"
	"math/big"
	"strings"
	"testing"
	"time"

	jose "gopkg.in/square/go-jose.v2"
	"gopkg.in/square/go-jose.v2/jwt"

	"rbac-node/internal/logs"
)

// set returns the text of some keys.
func setOf(t *testing.T, keys ...jose.JSONWebKey) string {
	t.Helper()
	text, err := json.Marshal(jose.JSONWebKeySet{Keys: keys})
	if err != nil {
		t.Fatal(err)
	}
	return string(text)
}

// sign returns a token.
func sign(t *testing.T, algorithm jose.SignatureAlgorithm, key any, head map[jose.HeaderKey]any, claims any) string {
	t.Helper()
	options := (&jose.SignerOptions{}).WithType("JWT")
	for name, value := range head {
		options = options.WithHeader(name, value)
	}
	signer, err := jose.NewSigner(jose.SigningKey{Algorithm: algorithm, Key: key}, options)
	if err != nil {
		t.Fatal(err)
	}
	token, err := jwt.Signed(signer).Claims(claims).CompactSerialize()
	if err != nil {
		t.Fatal(err)
	}
	return token
}

func encoded(text string) string { return base64.RawURLEncoding.EncodeToString([]byte(text)) }

func TestJWT(t *testing.T) {
	key, other := newKey(t), newKey(t)
	slow, err := rsa.GenerateKey(rand.Reader, 2048)
	if err != nil {
		t.Fatal(err)
	}
	public, err := x509.MarshalPKIXPublicKey(&slow.PublicKey)
	if err != nil {
		t.Fatal(err)
	}
	ring, err := newKeyring(Files{Issuer: "https://id", Audience: "rbac", Subject: "sub", Keys: write(t, "keys", setOf(t,
		jose.JSONWebKey{Key: &key.PublicKey, KeyID: "k1", Algorithm: "ES256", Use: "sig"},
		jose.JSONWebKey{Key: &slow.PublicKey, KeyID: "k2"}))}, logs.New(io.Discard))
	if err != nil {
		t.Fatal(err)
	}
	now := time.Now()
	good := map[string]any{"iss": "https://id", "aud": "rbac", "sub": "shop", "exp": now.Unix() + 60}
	with := func(key string, value any) map[string]any {
		claims := map[string]any{key: value}
		for name, value := range good {
			if _, has := claims[name]; !has {
				claims[name] = value
			}
		}
		if value == nil {
			delete(claims, key)
		}
		return claims
	}
	k1, k2 := map[jose.HeaderKey]any{"kid": "k1"}, map[jose.HeaderKey]any{"kid": "k2"}
	ofKey := func(key *ecdsa.PrivateKey, claims any) string { return sign(t, jose.ES256, key, k1, claims) }
	signed := ofKey(key, good)
	parts := strings.Split(signed, ".")
	for _, test := range []struct{ name, token, want string }{
		{"a good one", signed, "shop"},
		{"one by RSA", sign(t, jose.RS256, slow, k2, good), "shop"},
		{"one by RSA-PSS", sign(t, jose.PS512, slow, k2, good), "shop"},
		{"several audiences", ofKey(key, with("aud", []string{"x", "rbac"})), "shop"},
		{"valid since now", ofKey(key, with("nbf", now.Unix())), "shop"},
		{"a claim of another kind of caller", ofKey(key, with("sub", "token:admin")), "token:admin"},
		{"expired", ofKey(key, with("exp", now.Unix()-1)), ""},
		{"expired now", ofKey(key, with("exp", now.Unix())), ""},
		{"without exp", ofKey(key, with("exp", nil)), ""},
		{"an exp that is a text", ofKey(key, with("exp", "9999999999")), ""},
		{"EXP in place of exp", ofKey(key, func() any { c := with("exp", nil); c["EXP"] = now.Unix() + 60; return c }()), ""},
		{"an exp that is too great", ofKey(key, with("exp", 1e300)), ""},
		{"not yet valid", ofKey(key, with("nbf", now.Unix()+60)), ""},
		{"another issuer", ofKey(key, with("iss", "https://id/")), ""},
		{"no issuer", ofKey(key, with("iss", nil)), ""},
		{"another audience", ofKey(key, with("aud", "rbac2")), ""},
		{"other audiences", ofKey(key, with("aud", []string{"x", "y"})), ""},
		{"no audience", ofKey(key, with("aud", nil)), ""},
		{"no subject", ofKey(key, with("sub", nil)), ""},
		{"an empty subject", ofKey(key, with("sub", "")), ""},
		{"a subject that is a number", ofKey(key, with("sub", 7)), ""},
		{"SUB in place of sub", ofKey(key, func() any { c := with("sub", nil); c["SUB"] = "shop"; return c }()), ""},
		{"another key", ofKey(other, good), ""},
		{"an unknown kid", sign(t, jose.ES256, key, map[jose.HeaderKey]any{"kid": "k3"}, good), ""},
		{"the kid of another key", sign(t, jose.ES256, key, k2, good), ""},
		{"no kid", sign(t, jose.ES256, key, nil, good), ""},
		{"crit", sign(t, jose.ES256, key, map[jose.HeaderKey]any{"kid": "k1", "crit": []string{"x"}, "x": 1}, good), ""},
		{"an empty crit", sign(t, jose.ES256, key, map[jose.HeaderKey]any{"kid": "k1", "crit": []string{}}, good), ""},
		{"HS256 with the public key", sign(t, jose.HS256, pem.EncodeToMemory(&pem.Block{Type: "PUBLIC KEY", Bytes: public}), k2, good), ""},
		{"HS256 with the bytes of the public key", sign(t, jose.HS256, public, k2, good), ""},
		{"none", encoded(`{"alg":"none","kid":"k1"}`) + "." + parts[1] + ".", ""},
		{"None", encoded(`{"alg":"None","kid":"k1"}`) + "." + parts[1] + "." + parts[2], ""},
		{"another head", encoded(`{"alg":"ES256","kid":"k1","x":1}`) + "." + parts[1] + "." + parts[2], ""},
		{"other claims", parts[0] + "." + encoded(`{"iss":"https://id","aud":"rbac","sub":"admin","exp":9999999999}`) + "." + parts[2], ""},
		{"no signature", parts[0] + "." + parts[1] + ".", ""},
		{"two parts", parts[0] + "." + parts[1], ""},
		{"four parts", signed + ".x", ""},
		{"a token with padding", signed + "=", ""},
		{"JSON", `{"payload":"` + parts[1] + `","protected":"` + parts[0] + `","signature":"` + parts[2] + `"}`, ""},
		{"over 8 kB", ofKey(key, with("x", strings.Repeat("x", 8192))), ""},
		{"almost 8 kB", ofKey(key, with("x", strings.Repeat("x", 5000))), "shop"},
		{"nothing", "", ""},
		{"dots", "..", ""},
	} {
		t.Run(test.name, func(t *testing.T) {
			if name, err := ring.caller(test.token, now); name != test.want || (err == nil) != (test.want != "") {
				t.Errorf("%q, %v", name, err)
			}
		})
	}
}

func TestKeys(t *testing.T) {
	key := newKey(t)
	short, err := rsa.GenerateKey(rand.Reader, 1024)
	if err != nil {
		t.Fatal(err)
	}
	public := jose.JSONWebKey{Key: &key.PublicKey, KeyID: "k"}
	for _, test := range []struct{ name, text, says string }{
		{"a good one", setOf(t, public), ""},
		{"no key", setOf(t), "has none"},
		{"not JSON", "x", "invalid"},
		{"a private key", setOf(t, jose.JSONWebKey{Key: key, KeyID: "k"}), "isn't a public key"},
		{"a secret", setOf(t, jose.JSONWebKey{Key: []byte("secret"), KeyID: "k"}), "isn't a public key"},
		{"no kid", setOf(t, jose.JSONWebKey{Key: &key.PublicKey}), "has no kid"},
		{"a kid twice", setOf(t, public, public), "another key has its kid"},
		{"a key for encryption beside it", setOf(t, public, jose.JSONWebKey{Key: &short.PublicKey, Algorithm: "RSA-OAEP", KeyID: "k2", Use: "enc"}), ""},
		{"only a key for encryption", setOf(t, jose.JSONWebKey{Key: &key.PublicKey, KeyID: "k", Use: "enc"}), "has none for signatures"},
		{"a key for something else", setOf(t, jose.JSONWebKey{Key: &key.PublicKey, KeyID: "k", Use: "x"}), "isn't for signatures"},
		{"an unknown sort of key beside it", strings.Replace(setOf(t, public), "[", `[{"kty":"AKP","kid":"k3","alg":"ML-DSA-44"},`, 1), ""},
		{"only an unknown sort", `{"keys":[{"kty":"AKP","kid":"k3"}]}`, "has none for signatures"},
		{"a large key", setOf(t, jose.JSONWebKey{Key: &rsa.PublicKey{N: new(big.Int).Lsh(big.NewInt(1), 8192), E: 65537}, KeyID: "k"}), "8193 bits"},
		{"an algorithm with a secret", setOf(t, jose.JSONWebKey{Key: &key.PublicKey, KeyID: "k", Algorithm: "HS256"}), "isn't accepted"},
		{"a short key", setOf(t, jose.JSONWebKey{Key: &short.PublicKey, KeyID: "k"}), "fewer than 2048 bits"},
	} {
		t.Run(test.name, func(t *testing.T) {
			log := &bytes.Buffer{}
			_, err := newKeyring(Files{Keys: write(t, "keys", test.text), Issuer: "i", Audience: "a", Subject: "sub"}, logs.New(log))
			if isBeside := strings.Contains(test.name, "beside"); isBeside != strings.Contains(log.String(), "a key is left out") && test.says == "" {
				t.Errorf("the log: %s", log)
			}
			if test.says == "" && err != nil || test.says != "" && (err == nil || !strings.Contains(err.Error(), test.says)) {
				t.Errorf("%v and not %q", err, test.says)
			}
		})
	}
	if _, err := newKeyring(Files{Keys: write(t, "keys", setOf(t, public)), Issuer: "i", Subject: "sub"}, logs.New(io.Discard)); err == nil {
		t.Error("no audience")
	}
	if ring, err := newKeyring(Files{}, logs.New(io.Discard)); ring != nil || err != nil {
		t.Error(ring, err)
	}
}

// A claim that users may set makes a caller only if the issuer has verified it, and those that nobody verifies are warned of.
func TestSettableClaims(t *testing.T) {
	key := newKey(t)
	keys := write(t, "keys", setOf(t, jose.JSONWebKey{Key: &key.PublicKey, KeyID: "k"}))
	now := time.Now()
	for _, test := range []struct {
		subject string
		more    map[string]any
		want    string
		isSaid  string
	}{
		{"email", map[string]any{"email_verified": true}, "carla@example.com", ""},
		{"email", map[string]any{"email_verified": false}, "", "hasn't verified"},
		{"email", nil, "", "hasn't verified"},
		{"email", map[string]any{"email_verified": "true"}, "", "hasn't verified"},
		{"email", map[string]any{"email_verified": 1}, "", "hasn't verified"},
		{"email", map[string]any{"EMAIL_VERIFIED": true}, "", "hasn't verified"},
		{"phone_number", map[string]any{"email_verified": true}, "", "hasn't verified"},
		{"phone_number", map[string]any{"phone_number_verified": true}, "carla@example.com", ""},
		{"preferred_username", nil, "carla@example.com", "users may often set"},
		{"name", nil, "carla@example.com", "users may often set"},
		{"sub", nil, "carla@example.com", ""},
	} {
		log := &bytes.Buffer{}
		ring, err := newKeyring(Files{Keys: keys, Issuer: "i", Audience: "a", Subject: test.subject}, logs.New(log))
		if err != nil {
			t.Fatal(err)
		}
		claims := map[string]any{"iss": "i", "aud": "a", "exp": now.Unix() + 60, test.subject: "carla@example.com"}
		for name, value := range test.more {
			claims[name] = value
		}
		token := sign(t, jose.ES256, key, map[jose.HeaderKey]any{"kid": "k"}, claims)
		for i := 0; i < 2; i++ {
			if name, err := ring.caller(token, now); name != test.want || (err == nil) != (test.want != "") {
				t.Errorf("%s, %v: %q, %v", test.subject, test.more, name, err)
			}
		}
		if said := strings.Count(log.String(), "\n"); test.isSaid != "" && !strings.Contains(log.String(), test.isSaid) || said > 1 || test.isSaid == "" && said > 0 {
			t.Errorf("%s, %v: %s", test.subject, test.more, log)
		}
	}
}
