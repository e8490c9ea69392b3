package clock

import (
	"errors"
	"math"
	"strings"
	"sync"
	"testing"
	"time"
)

const hour, day, year = time.Hour, 24 * time.Hour, 365 * 24 * time.Hour

// begin is what the clock of the machine of a test shows at first.
var begin = time.Date(2026, time.December, 1, 12, 0, 0, 0, time.UTC)

// A fakeMachine has clocks that a test sets.
type fakeMachine struct {
	wall   time.Time
	steady time.Duration
}

func (m *fakeMachine) read() Reading {
	return Reading{Wall: m.wall, Steady: m.steady}
}

// pass lets time pass by both clocks.
func (m *fakeMachine) pass(d time.Duration) {
	m.wall, m.steady = m.wall.Add(d), m.steady+d
}

// jump sets the clock of the machine.
func (m *fakeMachine) jump(d time.Duration) {
	m.wall = m.wall.Add(d)
}

func newFake(change time.Duration) (*fakeMachine, *Clock) {
	m := &fakeMachine{wall: begin, steady: 90 * time.Hour}
	return m, Of(m.read, change)
}

// since returns how much time has passed by a clock since the begin of the test.
func since(c *Clock) time.Duration {
	return time.Duration(c.Now()-uint64(begin.Unix())) * time.Second
}

func TestNow(t *testing.T) {
	for _, test := range []struct {
		name  string
		jump  time.Duration
		after time.Duration // how much time passes then
		want  time.Duration // and how much by the clock
	}{
		{"no jump", 0, hour, hour},
		{"a jump ahead counts nothing at once", hour, 0, 0},
		{"a jump back counts nothing at once", -hour, 0, 0},
		{"ahead: three seconds more a minute", hour, time.Minute, 63 * time.Second},
		{"back: three seconds less a minute", -hour, time.Minute, 57 * time.Second},
		{"ahead, and then both agree", hour, 20 * hour, 21 * hour},
		{"ahead, and no more than that", hour, 40 * hour, 41 * hour},
		{"back, and then both agree", -hour, 20 * hour, 19 * hour},
		{"back, and no more than that", -hour, 40 * hour, 39 * hour},
		{"as far ahead as it follows", 10 * year, 20 * time.Minute, 21 * time.Minute},
		{"a second further", 10*year + time.Second, 20 * time.Minute, 20 * time.Minute},
		{"as far back as it follows", -10 * year, 20 * time.Minute, 19 * time.Minute},
		{"a second further back", -10*year - time.Second, 20 * time.Minute, 20 * time.Minute},
		{"as far as a Duration goes", math.MaxInt64, hour, hour},
	} {
		t.Run(test.name, func(t *testing.T) {
			m, c := newFake(MaxChange)
			m.jump(test.jump)
			if got := since(c); got != 0 {
				t.Errorf("it has jumped by %v", got)
			}
			m.pass(test.after)
			if got := since(c); got != test.want {
				t.Errorf("it has gone on by %v, want %v", got, test.want)
			}
		})
	}
}

// However the machine jumps, and whenever it is read, a clock is neither faster nor slower than by a twentieth.
func TestPace(t *testing.T) {
	m, c := newFake(MaxChange)
	jumps := []time.Duration{50 * year, -50 * year, hour, -3 * hour, 5 * time.Second, -2 * time.Hour, 9 * year, -9 * year, time.Second}
	last := since(c)
	for i := 0; i < 10_000; i++ {
		step := time.Duration(i*i%977) * time.Second
		m.pass(step)
		m.jump(jumps[i%len(jumps)])
		now := since(c)
		least, most := step-step/slope-time.Second, step+step/slope+time.Second // in whole seconds
		if passed := now - last; passed < 0 || passed < least || passed > most {
			t.Fatalf("step %d: %v by the clock, where %v have passed", i, passed, step)
		}
		last = now
	}
}

// A wrong time of fifty years ahead leaves nothing behind.
func TestWrongTimeLeavesNothing(t *testing.T) {
	m, c := newFake(MaxChange)
	m.jump(50 * year)
	c.Now()
	m.pass(hour)
	c.Now()
	m.jump(-50 * year)
	if got := since(c); got != hour {
		t.Errorf("it shows %v after an hour", got)
	}
}

func TestBegin(t *testing.T) {
	for _, test := range []struct {
		name string
		seen time.Duration // the last time of the store, beside that of the machine
		line string        // what the line for the log has
		want time.Duration // where the clock goes on
		far  bool
	}{
		{"the same time", 0, "", 0, false},
		{"a month before", -30*day + time.Second, "", 0, false},
		{"idle for a month", -30 * day, "30 days ago", 0, false},
		{"idle for almost ten years", -10 * year, "3650 days ago", 0, false},
		{"idle for longer", -10*year - time.Second, "", 0, true},
		{"a second later", time.Second, "", time.Second, false},
		{"two seconds later", 2 * time.Second, "2s behind", 2 * time.Second, false},
		{"an hour later", hour, "1h0m0s behind the last change in the folder (2026-12-01 13:00:00 UTC)", hour, false},
		{"almost ten years later", 10 * year, "behind", 10 * year, false},
		{"in the next fifty years", 50 * year, "", 0, true},
	} {
		t.Run(test.name, func(t *testing.T) {
			_, c := newFake(MaxChange)
			line, err := c.Begin(uint64(begin.Add(test.seen).Unix()))
			var far *FarError
			if errors.As(err, &far) != test.far {
				t.Errorf("the error is %v", err)
			}
			if line != "" && test.line == "" || !strings.Contains(line, test.line) {
				t.Errorf("the line is %q, want %q in it", line, test.line)
			}
			if got := since(c); got != test.want {
				t.Errorf("it goes on from %v, want %v", got, test.want)
			}
		})
	}
}

// After a start with a store of an hour later, the clock nears the machine from there, and says nothing of a jump.
func TestBeginNears(t *testing.T) {
	m, c := newFake(MaxChange)
	if _, err := c.Begin(uint64(begin.Add(hour).Unix())); err != nil {
		t.Fatal(err)
	}
	m.pass(10 * hour)
	if got := since(c); got != 10*hour+30*time.Minute {
		t.Errorf("after ten hours it shows %v", got)
	}
	m.pass(10 * hour)
	if got := since(c); got != 20*hour {
		t.Errorf("after twenty hours it shows %v", got)
	}
	if news := c.News(); news != "" {
		t.Errorf("it says %q", news)
	}
}

func TestBeginNamesBothTimes(t *testing.T) {
	_, c := newFake(hour)
	_, err := c.Begin(uint64(begin.Add(2 * hour).Unix()))
	for _, part := range []string{"2026-12-01 12:00:00 UTC", "2026-12-01 14:00:00 UTC", "-max-clock-change (1h0m0s)"} {
		if err == nil || !strings.Contains(err.Error(), part) {
			t.Errorf("the error is %v, without %q", err, part)
		}
	}
	if _, err := c.Begin(math.MaxUint64); err == nil || !strings.Contains(err.Error(), "9999-12-31") {
		t.Errorf("of the latest time the error is %v", err)
	}
}

func TestNews(t *testing.T) {
	for _, test := range []struct {
		name  string
		jumps []time.Duration // one every ten seconds
		want  []string        // what each line has
	}{
		{"none", []time.Duration{0, 0}, nil},
		{"a leap second", []time.Duration{time.Second, 0, -time.Second}, nil},
		{"ahead", []time.Duration{hour}, []string{"jumped 1h0m0s ahead, and is 1h0m0s ahead of the time of the server: that nears it"}},
		{"back", []time.Duration{-hour}, []string{"jumped 1h0m0s back, and is 1h0m0s behind the time of the server: that nears it"}},
		{"further than it follows", []time.Duration{50 * year}, []string{"438000h0m0s ahead of the time of the server: that does not follow"}},
		{
			"there and back within a minute", []time.Duration{hour, -hour},
			[]string{"jumped 1h0m0s ahead", "jumped 1h0m0s back, and shows the time of the server again"},
		},
		{
			"every ten seconds of ten minutes", repeat(60, 5*time.Second),
			append(append([]string{"jumped 5s ahead"}, repeat(9, "jumped 30s ahead")...), "jumped 25s ahead"),
		},
		{
			"there and back for ten minutes", repeat(30, hour, -hour),
			repeat(5, "jumped 1h0m0s ahead, and is 1h0m0s ahead", "jumped 1h0m0s back, and shows"),
		},
	} {
		t.Run(test.name, func(t *testing.T) {
			m, c := newFake(MaxChange)
			var lines []string
			for i := 0; i < len(test.jumps)+6; i++ {
				m.pass(10 * time.Second)
				if i < len(test.jumps) {
					m.jump(test.jumps[i])
				}
				c.Now()
				if line := c.News(); line != "" {
					lines = append(lines, line)
				}
			}
			if len(lines) > len(test.jumps)/6+2 {
				t.Errorf("%d lines in %d minutes", len(lines), len(test.jumps)/6+1)
			}
			for i, line := range lines {
				if i >= len(test.want) || !strings.Contains(line, test.want[i]) {
					t.Errorf("line %d is %q", i, line)
				}
			}
			if len(lines) != len(test.want) {
				t.Errorf("%d lines, want %d", len(lines), len(test.want))
			}
		})
	}
}

// repeat returns the items n times, one after the other.
func repeat[T any](n int, items ...T) []T {
	var all []T
	for i := 0; i < n; i++ {
		all = append(all, items...)
	}
	return all
}

// A machine whose clock was never set shows a time before 1970.
func TestBefore1970(t *testing.T) {
	m := &fakeMachine{wall: time.Unix(-100, 0)}
	c := Of(m.read, MaxChange)
	if got := c.Now(); got != 0 {
		t.Errorf("it shows %d", got)
	}
	m.pass(200 * time.Second)
	if got := c.Now(); got != 100 {
		t.Errorf("later it shows %d", got)
	}
}

func TestMachine(t *testing.T) {
	c := New(MaxChange)
	var all sync.WaitGroup
	for i := 0; i < 4; i++ {
		all.Add(1)
		go func() {
			defer all.Done()
			for last, j := uint64(0), 0; j < 1000; j++ {
				now := c.Now()
				if now < last || c.News() != "" {
					t.Errorf("from %d to %d, %q", last, now, c.News())
				}
				last = now
			}
		}()
	}
	all.Wait()
	if first, then := machine(), machine(); then.Steady < first.Steady {
		t.Errorf("the steady clock went from %v to %v", first.Steady, then.Steady)
	}
	if now := time.Now().Unix(); c.Now() < uint64(now-2) {
		t.Errorf("it shows %d, and the machine %d", c.Now(), now)
	}
}
