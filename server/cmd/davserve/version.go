package main

import "runtime/debug"

// version is the release that is next, or this one.
const version = "0.2.0-dev"

// revisionLength is how many digits of a commit are shown.
const revisionLength = 12

// revision returns the commit from which a program was built, with "-modified" if files had changed since. It is empty
// if the build does not say.
func revision(settings []debug.BuildSetting) string {
	commit, suffix := "", ""
	for _, setting := range settings {
		switch {
		case setting.Key == "vcs.revision":
			commit = setting.Value
		case setting.Key == "vcs.modified" && setting.Value == "true":
			suffix = "-modified"
		}
	}
	if commit == "" {
		return ""
	}
	if len(commit) > revisionLength {
		commit = commit[:revisionLength]
	}
	return commit + suffix
}

// ownRevision returns the commit from which this program was built.
func ownRevision() string {
	info, ok := debug.ReadBuildInfo()
	if !ok {
		return ""
	}
	return revision(info.Settings)
}

// versionLine says what this program is, such as "davserve 0.2.0 (0123456789ab, go1.19.8)".
func versionLine(commit, goVersion string) string {
	if commit != "" {
		commit += ", "
	}
	return "davserve " + version + " (" + commit + goVersion + ")"
}
