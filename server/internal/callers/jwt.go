package callers

import (
	"crypto/rsa"
	"encoding/base64"
	"encoding/json"
	"errors"
	"fmt"
	"os"
	"strings"
	"sync"
	"time"

	jose "gopkg.in/square/go-jose.v2"
	josejson "gopkg.in/square/go-jose.v2/json"
	"gopkg.in/square/go-jose.v2/jwt"

	"rbac-node/internal/logs"
	"rbac-node/internal/web"
)

const (
	// longestJWT is the most bytes of a token that is looked at.
	longestJWT = 8192
	// fewestBits is how many bits an RSA key has at least. It has at most as many as that of a certificate.
	fewestBits = 2048
	// ahead is how far another machine's clock may be ahead. A token is never accepted after its end.
	ahead = 10 * time.Second
)

// algorithms are the accepted ones. All use a public key, so nobody who can read the keys can make a token.
var algorithms = map[string]bool{
	"RS256": true, "RS384": true, "RS512": true, "PS256": true, "PS384": true, "PS512": true,
	"ES256": true, "ES384": true, "ES512": true, "EdDSA": true,
}

// verifiedBy has the claims that count only if another one says that the issuer has verified them.
var verifiedBy = map[string]string{"email": "email_verified", "phone_number": "phone_number_verified"}

// settable are claims that users may often set themselves, and so take the name of somebody else.
var settable = map[string]bool{
	"preferred_username": true, "name": true, "nickname": true, "given_name": true, "family_name": true, "middle_name": true,
	"username": true, "profile": true, "website": true, "picture": true,
}

// A keyring verifies tokens by the keys of a file. Nothing is fetched.
type keyring struct {
	keys                      map[string]jose.JSONWebKey
	issuer, audience, subject string
	log                       *logs.Logger
	// unverified says once that a claim wasn't verified.
	unverified sync.Once
}

// newKeyring reads the keys, if there is a file.
func newKeyring(files Files, log *logs.Logger) (*keyring, error) {
	if files.Keys == "" {
		return nil, nil
	}
	if files.Issuer == "" || files.Audience == "" || files.Subject == "" {
		return nil, errors.New("keys of JWTs need an issuer, an audience and a claim")
	}
	text, err := os.ReadFile(files.Keys)
	if err != nil {
		return nil, fmt.Errorf("keys: %w", err)
	}
	var found struct {
		Keys []json.RawMessage `json:"keys"`
	}
	if err := json.Unmarshal(text, &found); err != nil {
		return nil, fmt.Errorf("keys: %s: %w", files.Keys, err)
	}
	ring := &keyring{keys: map[string]jose.JSONWebKey{}, issuer: files.Issuer, audience: files.Audience, subject: files.Subject, log: log}
	for i, text := range found.Keys {
		if err := ring.add(text); err != nil {
			return nil, fmt.Errorf("keys: %s: key %d: %w", files.Keys, i+1, err)
		}
	}
	if len(ring.keys) == 0 {
		return nil, fmt.Errorf("keys: %s has none for signatures", files.Keys)
	}
	if settable[files.Subject] {
		log.Warn("users may often set this claim themselves, and so become another caller: use sub", "claim", files.Subject)
	}
	return ring, nil
}

// add adds a key. One that is for something else, or of a sort that isn't known, is left out: issuers publish such keys beside theirs.
func (k *keyring) add(text json.RawMessage) error {
	var about struct{ Kid, Kty, Use string }
	if err := json.Unmarshal(text, &about); err != nil {
		return err
	}
	switch {
	case about.Use == "enc":
		k.log.Info("a key is left out, since it is for encryption", "kid", about.Kid)
		return nil
	case about.Kty != "RSA" && about.Kty != "EC" && about.Kty != "OKP" && about.Kty != "oct":
		k.log.Warn("a key is left out, since its sort is unknown", "kid", about.Kid, "kty", about.Kty)
		return nil
	}
	var key jose.JSONWebKey
	if err := json.Unmarshal(text, &key); err != nil {
		return err
	}
	if err := checkKey(key); err != nil {
		return err
	}
	if _, has := k.keys[key.KeyID]; has {
		return errors.New("another key has its kid")
	}
	k.keys[key.KeyID] = key
	return nil
}

// checkKey reports why a key isn't used.
func checkKey(key jose.JSONWebKey) error {
	switch public, isRSA := key.Key.(*rsa.PublicKey); {
	case key.KeyID == "":
		return errors.New("it has no kid")
	case !key.IsPublic() || !key.Valid():
		return errors.New("it isn't a public key")
	case key.Use != "" && key.Use != "sig":
		return errors.New("it isn't for signatures")
	case key.Algorithm != "" && !algorithms[key.Algorithm]:
		return errors.New("its algorithm isn't accepted")
	case isRSA && public.N.BitLen() < fewestBits:
		return fmt.Errorf("it has fewer than %d bits", fewestBits)
	}
	return web.CheckKey(key.Key)
}

// caller returns the name that a token is about, if it is good.
func (k *keyring) caller(token string, now time.Time) (string, error) {
	if len(token) > longestJWT {
		return "", errors.New("the JWT is too long")
	}
	if strings.ContainsAny(token, " \t\r\n") { // The library would leave them out.
		return "", errors.New("the JWT has a space")
	}
	key, err := k.keyOf(token)
	if err != nil {
		return "", err
	}
	parsed, err := jwt.ParseSigned(token)
	if err != nil {
		return "", fmt.Errorf("JWT: %w", err)
	}
	var claims jwt.Claims
	var all map[string]josejson.RawMessage
	if err := parsed.Claims(key.Key, &claims, &all); err != nil {
		return "", fmt.Errorf("JWT: %w", err)
	}
	switch {
	case claims.Issuer != k.issuer:
		return "", errors.New("the JWT has another issuer")
	case !claims.Audience.Contains(k.audience):
		return "", errors.New("the JWT has another audience")
	case claims.Expiry == nil:
		return "", errors.New("the JWT never expires")
	case !now.Before(claims.Expiry.Time()):
		return "", errors.New("the JWT has expired")
	case claims.NotBefore != nil && now.Add(ahead).Before(claims.NotBefore.Time()):
		return "", errors.New("the JWT is not valid yet")
	}
	return k.nameIn(all)
}

// nameIn returns the name that the claims of a good token have.
func (k *keyring) nameIn(claims map[string]josejson.RawMessage) (name string, err error) {
	if err := josejson.Unmarshal(claims[k.subject], &name); err != nil || name == "" {
		return "", fmt.Errorf("the JWT has no text at %s", k.subject)
	}
	if by := verifiedBy[k.subject]; by != "" && string(claims[by]) != "true" {
		k.unverified.Do(func() {
			k.log.Warn("a JWT makes no caller, since its issuer hasn't verified the claim: "+
				"the file of refused requests has the others", "claim", k.subject, "missing", by)
		})
		return "", fmt.Errorf("the JWT doesn't say true at %s", by)
	}
	return name, nil
}

// keyOf reads the head of a token, and returns the key that it names.
func (k *keyring) keyOf(token string) (key jose.JSONWebKey, err error) {
	parts := strings.Split(token, ".")
	if len(parts) != 3 {
		return key, errors.New("unknown token, which is no JWT either")
	}
	text, err := base64.RawURLEncoding.DecodeString(parts[0])
	if err != nil {
		return key, errors.New("the head of the JWT can't be read")
	}
	var head map[string]json.RawMessage
	var algorithm, kid string
	if json.Unmarshal(text, &head) != nil || json.Unmarshal(head["alg"], &algorithm) != nil || json.Unmarshal(head["kid"], &kid) != nil {
		return key, errors.New("the head of the JWT names no algorithm or no key")
	}
	if _, has := head["crit"]; has {
		return key, errors.New("the JWT wants something that isn't known here")
	}
	key, known := k.keys[kid]
	if !known {
		return key, errors.New("the key of the JWT is unknown")
	}
	if !algorithms[algorithm] || key.Algorithm != "" && key.Algorithm != algorithm {
		return key, errors.New("the algorithm of the JWT isn't accepted")
	}
	return key, nil
}
