//go:build ignore

package main

import (
	"net/http"
	"strconv"
	"strings"
)

// A load is what a server needs beforehand, and the requests that it then serves. Both depend on a count.
type load struct {
	name    string
	prepare func(s *server, count int)
	serve   func(s *server, count int)
}

// loads are those of tools/loads.py, whose names and requests these are. Those of PATCH are missing: the handler has no
// such method.
var loads = []load{
	{"mkput", nothing, makeAndPut},
	{"locks", func(s *server, count int) { putFiles(s, "/", count) }, lockAll},
	{"put10", func(s *server, _ int) { putFiles(s, "/", 10) }, putOver("/")},
	{"deep10", func(s *server, _ int) { putFiles(s, deep, 10) }, putOver(deep)},
	{"lock1", putOne, lockAgain},
	{"cycle1", putOne, cycle},
	{"cycle10000", putAmongLocks, cycle},
	{"delete", makeTree, func(s *server, count int) { s.deleteTree("/src/", count) }},
	{"findprop", putInCollection, findInFiles(findFive)},
	{"findall", putInCollection, findInFiles("")},
	{"finddeep", makeTree, findInTree},
	{"copytree", makeTree, copyAndDelete},
	{"movetree", makeTree, moveAndReturn},
	{"proppatch", putOne, patchProperties},
	{"propget", putWithProperty, findProperties},
	{"nested", nothing, nest},
	{"metadata", putByTens, findLengths},
}

// deep is a directory whose files have paths of six segments.
const deep = "/a/b/c/d/e/"

func nothing(*server, int) {}

func putOne(s *server, _ int) { putFiles(s, "/", 1) }

func putInCollection(s *server, count int) { putFiles(s, "/d/", count) }

// putFiles creates the files f0, f1 and so on, in a directory that it creates together with its parents.
func putFiles(s *server, directory string, count int) {
	path := "/"
	for _, name := range strings.FieldsFunc(directory, func(r rune) bool { return r == '/' }) {
		path += name + "/"
		s.makeCollection(path)
	}
	for i := 0; i < count; i++ {
		s.put(directory + "f" + strconv.Itoa(i))
	}
}

// putAmongLocks creates the file /f0, and 10,000 other files that are locked.
func putAmongLocks(s *server, _ int) {
	putFiles(s, "/", 1)
	for i := 0; i < 10000; i++ {
		s.lock("/other"+strconv.Itoa(i), http.StatusCreated)
	}
}

// makeTree creates a tree of count resources with the root /src. The first resources, level by level, are collections
// of ten members each, and the last collection may have fewer. The other resources are files.
func makeTree(s *server, count int) {
	members := count - 1
	paths := []string{"/src"}
	for m := 0; m < members; m++ {
		paths = append(paths, paths[m/10]+"/r"+strconv.Itoa(m%10))
	}
	collections := (members + 9) / 10
	if collections == 0 {
		collections = 1
	}
	for _, path := range paths[:collections] {
		s.makeCollection(path)
	}
	for _, path := range paths[collections:] {
		s.put(path)
	}
}

// putWithProperty creates the file /f0 with a dead property.
func putWithProperty(s *server, _ int) {
	putFiles(s, "/", 1)
	s.patchProperty("/f0", 0)
}

// putByTens creates the files with the numbers below count at their paths by pathByTens, and their directories.
func putByTens(s *server, count int) {
	for number := 0; number < count; number++ {
		path := pathByTens(number)
		parts := strings.Split(path, "/")
		for level, size := range []int{1000, 100, 10} {
			if number%size == 0 {
				s.makeCollection(strings.Join(parts[:level+2], "/") + "/")
			}
		}
		s.put(path)
	}
}

// pathByTens returns the path of the file with this number. A directory has ten files, and is one of ten in a
// directory, which is one of ten in a directory of the root.
func pathByTens(number int) string {
	return "/d" + strconv.Itoa(number/1000) + "/d" + strconv.Itoa(number/100%10) +
		"/d" + strconv.Itoa(number/10%10) + "/f" + strconv.Itoa(number%10)
}

func makeAndPut(s *server, count int) {
	for i := 0; i < count; i++ {
		directory := "/d" + strconv.Itoa(i) + "/"
		s.makeCollection(directory)
		s.put(directory + "f")
	}
}

func lockAll(s *server, count int) {
	tokens := make([]string, count)
	for i := range tokens {
		tokens[i] = s.lock("/f"+strconv.Itoa(i), http.StatusOK)
	}
	for i, token := range tokens {
		path := "/f" + strconv.Itoa(i)
		s.putLocked(path, token)
		s.unlock(path, token)
	}
}

func putOver(directory string) func(*server, int) {
	return func(s *server, count int) {
		for i := 0; i < count; i++ {
			s.put(directory + "f" + strconv.Itoa(i%10))
		}
	}
}

func lockAgain(s *server, count int) {
	for i := 0; i < count; i++ {
		s.unlock("/f0", s.lock("/f0", http.StatusOK))
	}
}

func cycle(s *server, count int) {
	for i := 0; i < count; i++ {
		token := s.lock("/f0", http.StatusOK)
		s.putLocked("/f0", token)
		s.unlock("/f0", token)
	}
}

func findInFiles(body string) func(*server, int) {
	return func(s *server, count int) {
		for i := 0; i < 4; i++ {
			s.find("/d/", body, field{"depth", "1"})
			s.countEach(count)
		}
	}
}

// findInTree sends the field X-Litmus as tools/loads.py does, because davd requires it. The handler here does not read it.
func findInTree(s *server, count int) {
	for i := 0; i < 4; i++ {
		s.find("/src/", findFive, field{"depth", "infinity"}, field{"x-litmus", "props"})
		s.countEach(count)
	}
}

func copyAndDelete(s *server, count int) {
	for i := 0; i < 3; i++ {
		s.copyTree("/src/", "/dst", count)
		s.deleteTree("/dst/", count)
	}
}

func moveAndReturn(s *server, count int) {
	for i := 0; i < 2; i++ {
		s.moveTree("/src/", "/dst", count)
		s.moveTree("/dst/", "/src", count)
	}
}

// patchProperties sets the property to another value each time.
func patchProperties(s *server, count int) {
	for i := 0; i < count; i++ {
		s.patchProperty("/f0", i)
	}
}

func findProperties(s *server, count int) {
	for i := 0; i < count; i++ {
		s.find("/f0", findDead, field{"depth", "0"})
	}
}

// nest makes count collections, each inside the previous one, copies the outermost one, and deletes both.
func nest(s *server, count int) {
	path := ""
	for i := 0; i < count; i++ {
		path += "/inner"
		s.makeCollection(path)
	}
	s.copyTree("/inner/", "/copy", count)
	s.deleteTree("/inner/", count)
	s.deleteTree("/copy/", count)
}

// findLengths requests a property of random files, the same in each run.
func findLengths(s *server, count int) {
	random := uint64(1)
	for i := 0; i < count; i++ {
		random = random*6364136223846793005 + 1442695040888963407
		s.find(pathByTens(int(random>>32)%count), findLength, field{"depth", "0"})
	}
}
