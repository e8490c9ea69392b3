package auth

import (
	"errors"
	"fmt"
	"strings"

	"golang.org/x/crypto/bcrypt"
)

// maxPassword is how many bytes a new password may have: bcrypt ignores what follows.
const maxPassword = 72

// CheckName returns an error unless an htpasswd file can have a user of this name.
func CheckName(name string) error {
	if err := checkName(name); err != nil {
		return err
	}
	switch {
	case strings.Contains(name, ":"):
		return errors.New("the name has a colon")
	case strings.HasPrefix(name, "#"):
		return errors.New("the name begins with #, as a comment does")
	case strings.TrimSpace(name) != name:
		return errors.New("white space around the name")
	}
	return nil
}

// CheckPassword returns an error unless clients can send this password, and its hash depends on each of its bytes.
func CheckPassword(password string) error {
	switch {
	case password == "":
		return errors.New("the password is empty")
	case len(password) > maxPassword:
		return fmt.Errorf("the password has more than %d bytes", maxPassword)
	case !isText(password):
		return errors.New("the password is not UTF-8 or has a control character")
	}
	return nil
}

// HasUser reports whether the text of an htpasswd file has a user of this name. An error has the number of the line.
func HasUser(text, name string) (bool, error) {
	t, err := parse(text)
	if err != nil {
		return false, err
	}
	_, ok := t.hashes[name]
	return ok, nil
}

// SetPassword returns the text of an htpasswd file with a user who has this password, hashed by bcrypt with this cost.
// The line of the user is replaced. If there is none, one is added at the end. Each other line stays.
func SetPassword(text, name, password string, cost int) (string, error) {
	if err := CheckName(name); err != nil {
		return "", err
	}
	if err := CheckPassword(password); err != nil {
		return "", err
	}
	if _, err := parse(text); err != nil {
		return "", err
	}
	hash, err := bcrypt.GenerateFromPassword([]byte(password), cost)
	if err != nil {
		return "", err
	}
	return withLine(text, name, name+":$2y$"+strings.TrimPrefix(string(hash), "$2a$")), nil
}

// withLine returns the text of a file with this line in the place of the line of the user, or at the end.
func withLine(text, name, line string) string {
	lines := strings.SplitAfter(text, "\n")
	for i, old := range lines {
		if strings.HasPrefix(old, name+":") {
			lines[i] = line + old[len(strings.TrimRight(old, "\r\n")):]
			return strings.Join(lines, "")
		}
	}
	if text != "" && !strings.HasSuffix(text, "\n") {
		text += "\n"
	}
	return text + line + "\n"
}
