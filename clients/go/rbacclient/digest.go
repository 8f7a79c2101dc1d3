package rbacclient

import (
	"encoding/binary"
	"encoding/hex"
	"math/bits"
)

// SessionDigest returns what the front shows to others instead of the name of a session: the first 32 hexadecimal digits of its SHA3-256.
func SessionDigest(name string) string {
	sum := sha3Sum256([]byte(name))
	return hex.EncodeToString(sum[:16])
}

// sha3Rate is how many bytes SHA3-256 takes at once.
const sha3Rate = 136

// sha3Sum256 returns the SHA3-256 of FIPS 202. Go's own library has it only since version 1.24, and a client needs nothing else.
func sha3Sum256(text []byte) (sum [32]byte) {
	var state [25]uint64
	padded := make([]byte, (len(text)/sha3Rate+1)*sha3Rate)
	copy(padded, text)
	padded[len(text)] = 0x06
	padded[len(padded)-1] |= 0x80
	for ; len(padded) > 0; padded = padded[sha3Rate:] {
		for i := 0; i < sha3Rate/8; i++ {
			state[i] ^= binary.LittleEndian.Uint64(padded[8*i:])
		}
		keccak(&state)
	}
	for i := 0; i < 4; i++ {
		binary.LittleEndian.PutUint64(sum[8*i:], state[i])
	}
	return sum
}

// keccakRotations and keccakPlaces say by how much, and to which place, each lane goes in turn.
var (
	keccakRotations = [24]int{1, 3, 6, 10, 15, 21, 28, 36, 45, 55, 2, 14, 27, 41, 56, 8, 25, 43, 62, 18, 39, 61, 20, 44}
	keccakPlaces    = [24]int{10, 7, 11, 17, 18, 3, 5, 16, 8, 21, 24, 4, 15, 23, 19, 13, 12, 2, 20, 14, 22, 9, 6, 1}
	keccakConstants = [24]uint64{
		0x0000000000000001, 0x0000000000008082, 0x800000000000808a, 0x8000000080008000, 0x000000000000808b, 0x0000000080000001,
		0x8000000080008081, 0x8000000000008009, 0x000000000000008a, 0x0000000000000088, 0x0000000080008009, 0x000000008000000a,
		0x000000008000808b, 0x800000000000008b, 0x8000000000008089, 0x8000000000008003, 0x8000000000008002, 0x8000000000000080,
		0x000000000000800a, 0x800000008000000a, 0x8000000080008081, 0x8000000000008080, 0x0000000080000001, 0x8000000080008008,
	}
)

// keccak is the permutation Keccak-f[1600].
func keccak(state *[25]uint64) {
	var row [5]uint64
	for _, constant := range keccakConstants {
		for x := range row {
			row[x] = state[x] ^ state[x+5] ^ state[x+10] ^ state[x+15] ^ state[x+20]
		}
		for x := range row {
			mixed := row[(x+4)%5] ^ bits.RotateLeft64(row[(x+1)%5], 1)
			for y := 0; y < 25; y += 5 {
				state[x+y] ^= mixed
			}
		}
		lane := state[1]
		for i, place := range keccakPlaces {
			state[place], lane = bits.RotateLeft64(lane, keccakRotations[i]), state[place]
		}
		for y := 0; y < 25; y += 5 {
			copy(row[:], state[y:y+5])
			for x := range row {
				state[x+y] = row[x] ^ (^row[(x+1)%5] & row[(x+2)%5])
			}
		}
		state[0] ^= constant
	}
}
