package scrub

import (
	"context"
	"fmt"
	"math/rand"
	"sort"
	"strings"
	"testing"
)

// paths returns the paths that a walk over a fake finds, and the walk.
func paths(t *testing.T, f *fake, names int) ([]string, *walk) {
	t.Helper()
	l := quick
	l.names = names
	w := newWalk(&run{
		Options: Options{Store: f, Path: "/", Progress: new(Progress), Report: func(Finding) {}, Tick: func() {}, limits: l},
		ctx:     context.Background(),
	})
	var found []string
	for {
		path, err := w.next()
		if err == errEnd {
			return found, w
		}
		if err != nil {
			t.Fatal(err)
		}
		found = append(found, path)
	}
}

// checkWalk checks that a walk finds each file once, and keeps no more names than it may.
func checkWalk(t *testing.T, f *fake, names int) *walk {
	t.Helper()
	found, w := paths(t, f, names)
	if len(found) != len(f.files) {
		t.Errorf("%d files are found, of %d", len(found), len(f.files))
	}
	seen := map[string]bool{}
	for _, path := range found {
		if _, ok := f.files[path]; !ok || seen[path] {
			t.Fatalf("%q is no file, or found twice", path)
		}
		seen[path] = true
	}
	if w.peak > names || w.kept != 0 {
		t.Errorf("%d bytes of names are kept at the most, and %d at the end, of %d", w.peak, w.kept, names)
	}
	return w
}

func TestALongCollectionNeedsLittleMemory(t *testing.T) {
	f := newFake()
	for i := 0; i < 100_000; i++ {
		f.add(fmt.Sprintf("/long/file-%06d", i), 1)
	}
	checkWalk(t, f, 1<<22)
	if n := f.asked["LIST /long/"]; n < 2 || n > 10 {
		t.Errorf("it was listed %d times", n)
	}
	f.asked = map[string]int{}
	checkWalk(t, f, defaultLimits.names)
	if n := f.asked["LIST /long/"]; n != 1 {
		t.Errorf("with the default it was listed %d times", n)
	}
}

func TestADeepTreeNeedsLittleMemory(t *testing.T) {
	f := newFake()
	path := "/"
	for i := 0; i < 1000; i++ {
		for j := 0; j < 20; j++ {
			f.add(fmt.Sprintf("%sz%02d", path, j), 1)
		}
		path += "d/"
	}
	w := checkWalk(t, f, 1<<14)
	if w.peak < 1<<12 {
		t.Errorf("%d bytes of names are kept at the most: the limit was not reached", w.peak)
	}
	for what, n := range f.asked {
		if n > 2 {
			t.Errorf("%s: %d times", what[:20], n)
		}
	}
}

func TestANameThatIsLongerThanTheLimit(t *testing.T) {
	f := newFake("/"+strings.Repeat("a", 500), "/"+strings.Repeat("b", 500), "/c")
	if found, _ := paths(t, f, 100); len(found) != 3 {
		t.Errorf("%d files are found", len(found))
	}
}

// Random trees are walked with little memory, in the order of their names.
func TestRandomTrees(t *testing.T) {
	random := rand.New(rand.NewSource(1))
	for n := 0; n < 200; n++ {
		f := newFake()
		for i := random.Intn(60); i > 0; i-- {
			path := ""
			for depth := random.Intn(4); depth >= 0; depth-- {
				path += "/" + strings.Repeat(string(rune('!'+random.Intn(5)))+"a", 1+random.Intn(3))
				if f.files[path] != (file{}) {
					path += "x"
				}
			}
			if f.below[path+"/"] == nil {
				f.add(path, 1)
			}
		}
		checkWalk(t, f, 200+random.Intn(2000))
	}
}

func TestNamesThatComeAndGo(t *testing.T) {
	f := newFake()
	for i := 0; i < 200; i++ {
		f.add(fmt.Sprintf("/%03d", i), 1)
	}
	f.before = func(f *fake, what string) error {
		if what == "LIST /" && f.asked[what] == 2 {
			f.add("/000a", 1) // before what was done
			f.add("/199a", 1)
			f.remove("/198")
		}
		return nil
	}
	found, _ := paths(t, f, 4096)
	if !sort.StringsAreSorted(found) || len(found) != 200 || found[199] != "/199a" {
		t.Errorf("%d files are found: %q", len(found), found)
	}
}
