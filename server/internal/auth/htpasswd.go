package auth

import (
	"encoding/binary"
	"errors"
	"fmt"
	"strconv"
	"strings"

	"golang.org/x/crypto/bcrypt"
)

// maxCost is the greatest cost of a hash that is accepted. Each step doubles the time: 14 is about a second.
const maxCost = 14

// hashLength is the length of a bcrypt hash: $2y$, the cost, $, and 53 characters.
const hashLength = 60

// A table has the users of an htpasswd file.
type table struct {
	hashes map[string]string // by name
	costs  []int             // of the hashes, in the order of the file
}

// parse reads an htpasswd file. Each line is a name, a colon and a bcrypt hash, or is blank, or begins with #. Lines
// end with LF or CRLF.
func parse(file string) (*table, error) {
	t := &table{hashes: make(map[string]string)}
	for i, line := range strings.Split(file, "\n") {
		if err := t.add(strings.TrimSuffix(line, "\r")); err != nil {
			return nil, fmt.Errorf("line %d: %w", i+1, err)
		}
	}
	return t, nil
}

// add adds the user of a line, if it has one.
func (t *table) add(line string) error {
	if strings.HasPrefix(line, "#") || strings.Trim(line, " \t") == "" {
		return nil
	}
	name, hash, ok := strings.Cut(line, ":")
	if !ok {
		return errors.New("no colon after the name")
	}
	if err := checkName(name); err != nil {
		return err
	}
	if strings.TrimSpace(name) != name {
		return fmt.Errorf("user %q: white space around the name", name)
	}
	if _, ok := t.hashes[name]; ok {
		return fmt.Errorf("user %q: the name is a duplicate", name)
	}
	cost, err := checkHash(hash)
	if err != nil {
		return fmt.Errorf("user %q: %w", name, err)
	}
	t.hashes[name] = hash
	t.costs = append(t.costs, cost)
	return nil
}

// checkHash returns the cost of a bcrypt hash.
func checkHash(hash string) (int, error) {
	if !strings.HasPrefix(hash, "$2a$") && !strings.HasPrefix(hash, "$2b$") && !strings.HasPrefix(hash, "$2y$") {
		return 0, errors.New("the hash is not one of bcrypt ($2a$, $2b$ or $2y$)")
	}
	if len(hash) != hashLength || hash[6] != '$' || !isBase64(hash[7:]) {
		return 0, errors.New("the bcrypt hash is malformed")
	}
	cost, err := strconv.ParseUint(hash[4:6], 10, 8)
	if err != nil || int(cost) < bcrypt.MinCost {
		return 0, errors.New("the cost of the bcrypt hash is malformed")
	}
	if cost > maxCost {
		return 0, fmt.Errorf("the cost of the bcrypt hash is %d, more than %d", cost, maxCost)
	}
	return int(cost), nil
}

// isBase64 reports whether s has only digits of bcrypt's base64.
func isBase64(s string) bool {
	for i := 0; i < len(s); i++ {
		c := s[i]
		if !('A' <= c && c <= 'Z' || 'a' <= c && c <= 'z' || '0' <= c && c <= '9' || c == '.' || c == '/') {
			return false
		}
	}
	return true
}

// find returns the hash of a user. For an unknown name it returns a hash with the cost of some user's hash, so that a
// check takes as long as for a user. The draw says whose cost it is.
func (t *table) find(name string, draw [8]byte) (hash string, known bool) {
	if hash, ok := t.hashes[name]; ok {
		return hash, true
	}
	cost := bcrypt.DefaultCost
	if n := uint64(len(t.costs)); n > 0 {
		cost = t.costs[binary.BigEndian.Uint64(draw[:])%n]
	}
	return fmt.Sprintf("$2y$%02d$%s", cost, strings.Repeat(".", hashLength-7)), false
}
