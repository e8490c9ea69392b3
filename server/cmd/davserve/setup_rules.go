package main

import (
	"fmt"
	"strings"
)

// firstRules returns the access rules of a new server: one user may read and write everything. Comments show how to add
// a second user.
func firstRules(user, file string) string {
	second := "bert"
	if user == second {
		second = "carl"
	}
	return fmt.Sprintf(`# The access rules of davserve. After a change: systemctl reload davserve
# What they allow is said by: davserve rights check %[3]s USER PATH

# This user may read and write everything.
[[rule]]
user = %[1]s
at_and_below = "/"
allow = ["list", "read", "write"]

# A second user, %[2]s, with a folder of its own. Others, except the user above, have no access to that folder.
# 1. Make the user: davserve setup -user %[2]s
# 2. Make the folder /%[2]s, as the user above.
# 3. Remove the # of these lines:
#[[rule]]
#user = "%[2]s"
#at_and_below = "/%[2]s"
#allow = ["list", "read", "write"]
`, tomlString(user), second, file)
}

// tomlString returns a text without control characters as a string of TOML.
func tomlString(text string) string {
	return `"` + strings.NewReplacer(`\`, `\\`, `"`, `\"`).Replace(text) + `"`
}
