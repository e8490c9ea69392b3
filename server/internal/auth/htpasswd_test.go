package auth

import (
	"fmt"
	"strings"
	"testing"
)

// Hashes of the tests of crypt_blowfish 1.3, and their passwords.
const (
	hashOfUxU   = "$2a$05$CCCCCCCCCCCCCCCCCCCCC.E5YPO9kmyuRGyh0XouQYb4YMJKvyOeW" // U*U
	hashOfUxUx  = "$2a$05$CCCCCCCCCCCCCCCCCCCCC.VGOzA784oUp/Z0DY336zx7pLYAy0lwK" // U*U*
	hashOfEmpty = "$2a$05$CCCCCCCCCCCCCCCCCCCCC.7uG0VCzI2bS7j6ymqJi9CdcdxiRTWNy"
	hashOfLong  = "$2a$05$abcdefghijklmnopqrstuu5s2v8.iXieOjg/.AySBTTZIIVFJeBui"
	long        = "0123456789abcdefghijklmnopqrstuvwxyzABCDEFGHIJKLMNOPQRSTUVWXYZ0123456789"
)

func TestParse(t *testing.T) {
	y := "$2y" + hashOfUxU[3:]
	b := "$2b" + hashOfUxU[3:]
	tests := []struct {
		name, file string
		want       map[string]string
	}{
		{"empty", "", nil},
		{"one", "alice:" + y, map[string]string{"alice": y}},
		{"line ends", "alice:" + y + "\nbob:" + b + "\n", map[string]string{"alice": y, "bob": b}},
		{"CRLF", "alice:" + y + "\r\n\r\nbob:" + b + "\r\n", map[string]string{"alice": y, "bob": b}},
		{"comments", "# users\n#alice:x\n\n \t\nalice:" + hashOfUxU + "\n#\n", map[string]string{"alice": hashOfUxU}},
		{"UTF-8", "J\u00fcrgen M\u00fcller:" + y, map[string]string{"J\u00fcrgen M\u00fcller": y}},
		{"case counts", "a:" + y + "\nA:" + b, map[string]string{"a": y, "A": b}},
		{"least cost", "a:$2y$04" + y[6:], map[string]string{"a": "$2y$04" + y[6:]}},
		{"greatest cost", "a:$2y$14" + y[6:], map[string]string{"a": "$2y$14" + y[6:]}},
		{"longest name", strings.Repeat("a", 256) + ":" + y, map[string]string{strings.Repeat("a", 256): y}},
	}
	for _, test := range tests {
		got, err := parse(test.file)
		if err != nil {
			t.Errorf("%s: %v", test.name, err)
			continue
		}
		if len(got.hashes) != len(test.want) || len(got.costs) != len(test.want) {
			t.Errorf("%s: %v", test.name, got)
		}
		for name, hash := range test.want {
			if got.hashes[name] != hash {
				t.Errorf("%s: %q has %q, want %q", test.name, name, got.hashes[name], hash)
			}
		}
	}
}

func TestParseErrors(t *testing.T) {
	rest := hashOfUxU[6:]
	tests := []struct {
		name, line string
	}{
		{"no colon", "alice"},
		{"no hash", "alice:"},
		{"no name", ":" + hashOfUxU},
		{"plain", "alice:secret"},
		{"DES", "alice:rqXexS6ZhobKA"},
		{"MD5", "alice:$apr1$r31.....$HqJZimcKQFAMYayBlzkrA/"},
		{"SHA-1", "alice:{SHA}VBPuJHI7uixaa6LQGWx4s+5GKNE="},
		{"SHA-512", "alice:$6$saltstring$svn8UoSVapNtMuq1ukKS4tPQd8iKwSMHWjlO/O817G3uBnIFNjnQJuesI68" +
			"OTLiBFdcbYEdFCoEOfaS35inz1"},
		{"Argon2", "alice:$argon2id$v=19$m=65536,t=2,p=1$c29tZXNhbHQ$CTFhFdXPJO1aFaMaO6Mm5c8y7cJHAph8ArZWb2GRPPc"},
		{"$2$", "alice:$2$05" + rest},
		{"$2x$", "alice:$2x$05" + rest},
		{"cost 3", "alice:$2y$03" + rest},
		{"cost 0", "alice:$2y$00" + rest},
		{"cost 15", "alice:$2y$15" + rest},
		{"cost 31", "alice:$2y$31" + rest},
		{"cost 99", "alice:$2y$99" + rest},
		{"cost with a sign", "alice:$2y$+5" + rest},
		{"cost with a space", "alice:$2y$ 5" + rest},
		{"cost of one digit", "alice:$2y$5" + rest},
		{"no dollar", "alice:$2y$05." + rest[1:]},
		{"short", "alice:" + hashOfUxU[:59]},
		{"long", "alice:" + hashOfUxU + "."},
		{"another field", "alice:" + hashOfUxU + ":comment"},
		{"space at the end", "alice:" + hashOfUxU + " "},
		{"strange digit", "alice:" + hashOfUxU[:59] + "+"},
		{"invalid UTF-8", "al\xffice:" + hashOfUxU},
		{"NUL", "al\x00ice:" + hashOfUxU},
		{"tab", "al\tice:" + hashOfUxU},
		{"carriage return", "al\rice:" + hashOfUxU},
		{"C1", "al\u0085ice:" + hashOfUxU},
		{"space before", " alice:" + hashOfUxU},
		{"space after", "alice :" + hashOfUxU},
		{"long name", strings.Repeat("a", 257) + ":" + hashOfUxU},
		{"duplicate", "first:" + hashOfUxUx},
	}
	for _, test := range tests {
		file := "# users\nfirst:" + hashOfUxU + "\n\n" + test.line + "\nlast:" + hashOfUxU + "\n"
		_, err := parse(file)
		if err == nil || !strings.HasPrefix(err.Error(), "line 4: ") {
			t.Errorf("%s: %v", test.name, err)
			continue
		}
		if strings.Contains(err.Error(), rest) || strings.Contains(err.Error(), "secret") {
			t.Errorf("%s: the error has the hash: %v", test.name, err)
		}
	}
}

func TestFindUnknown(t *testing.T) {
	file := ""
	for i, cost := range []string{"04", "05", "05", "12"} {
		file += fmt.Sprintf("user%d:$2y$%s%s\n", i, cost, hashOfUxU[6:])
	}
	users, err := parse(file)
	if err != nil {
		t.Fatal(err)
	}
	for draw, want := range []int{4, 5, 5, 12, 4} {
		hash, known := users.find("nobody", [8]byte{7: byte(draw)})
		if cost, err := checkHash(hash); known || err != nil || cost != want {
			t.Errorf("draw %d: %q, %v, cost %d, %v", draw, hash, known, cost, err)
		}
	}
	none, err := parse("")
	if err != nil {
		t.Fatal(err)
	}
	if hash, known := none.find("nobody", [8]byte{}); known || !strings.HasPrefix(hash, "$2y$10$") {
		t.Errorf("without users: %q, %v", hash, known)
	}
}

func FuzzParse(f *testing.F) {
	for _, file := range []string{"", "alice:" + hashOfUxU + "\n", "# x\r\n\r\nb:$2y$14" + hashOfUxU[6:],
		"a:b:c", ":", "\xff:"} {
		f.Add(file)
	}
	f.Fuzz(func(t *testing.T, file string) {
		users, err := parse(file)
		if err != nil {
			if !strings.HasPrefix(err.Error(), "line ") {
				t.Fatalf("no line: %v", err)
			}
			return
		}
		if len(users.hashes) != len(users.costs) || len(users.hashes) > strings.Count(file, "\n")+1 {
			t.Fatalf("%d users, %d costs", len(users.hashes), len(users.costs))
		}
		for name, hash := range users.hashes {
			if checkName(name) != nil || strings.Contains(name, ":") || !strings.Contains(file, name+":"+hash) {
				t.Fatalf("user %q with %q", name, hash)
			}
			cost, err := checkHash(hash)
			if err != nil || cost < 4 || cost > 14 || len(hash) != 60 {
				t.Fatalf("hash %q: cost %d, %v", hash, cost, err)
			}
		}
	})
}
