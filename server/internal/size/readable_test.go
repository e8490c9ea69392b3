package size

import "testing"

func TestSizesAreReadByPeople(t *testing.T) {
	for n, want := range map[int64][2]string{
		0:                   {"0 bytes", "0 bytes"},
		1:                   {"1 byte", "1 byte"},
		999:                 {"999 bytes", "999 bytes"},
		1000:                {"1.0 kB", "1,000 bytes"},
		1049:                {"1.0 kB", "1,049 bytes"},
		9949:                {"9.9 kB", "9,949 bytes"},
		9950:                {"10 kB", "9,950 bytes"},
		999_499:             {"999 kB", "999,499 bytes"},
		999_500:             {"1.0 MB", "999,500 bytes"},
		1_234_567:           {"1.2 MB", "1,234,567 bytes"},
		12_345_678_901:      {"12 GB", "12,345,678,901 bytes"},
		4_000_000_000_000:   {"4.0 TB", "4,000,000,000,000 bytes"},
		1<<63 - 1:           {"9.2 EB", "9,223,372,036,854,775,807 bytes"},
		999_500_000_000_000: {"1.0 PB", "999,500,000,000,000 bytes"},
	} {
		if got := [2]string{Readable(n), Exact(n)}; got != want {
			t.Errorf("%d is %q, want %q", n, got, want)
		}
	}
}
