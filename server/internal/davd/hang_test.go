package davd

import "testing"

func TestIsStill(t *testing.T) {
	for states, want := range map[string]bool{
		"S": true, "T": true, "t": true, "STt": true,
		"": false, "R": false, "D": false, "Z": false, "SR": false, "DS": false, "I": false,
	} {
		if got := (threads{states: states}).isStill(); got != want {
			t.Errorf("%q: %v, want %v", states, got, want)
		}
	}
}

func TestAStandstillIsABoundOfEqualLooks(t *testing.T) {
	still := sight{answered: 3, threads: threads{"S", 7}}
	tests := []struct {
		name  string
		other sight
	}{
		{"nothing is seen", sight{}},
		{"it runs", sight{answered: 3, threads: threads{"R", 7}}},
		{"it waits for its disk", sight{answered: 3, threads: threads{"D", 7}}},
		{"it has run", sight{answered: 3, threads: threads{"S", 8}}},
		{"it was stopped", sight{answered: 3, threads: threads{"T", 7}}},
		{"it has answered", sight{answered: 4, threads: threads{"S", 7}}},
	}
	for _, test := range tests {
		var s standstill
		for i := 0; i < hangLooks; i++ {
			if s.add(still) {
				t.Fatalf("%s: it hangs after %d looks", test.name, i+1)
			}
		}
		if s.add(test.other) {
			t.Errorf("%s: it hangs", test.name)
		}
		for i := 0; i < hangLooks; i++ {
			if s.add(still) {
				t.Errorf("%s, and %d looks later it hangs", test.name, i+1)
			}
		}
		if !s.add(still) {
			t.Errorf("%s, and then it does not hang", test.name)
		}
	}
	for _, other := range tests[:3] {
		var s standstill
		for i := 0; i < 10*hangLooks; i++ {
			if s.add(other.other) {
				t.Errorf("%s for long: it hangs", other.name)
			}
		}
	}
}
