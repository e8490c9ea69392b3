package size

import (
	"fmt"
	"strconv"
)

// Readable returns a number of bytes as people read it: by powers of 1000, with two digits at least.
func Readable(n int64) string {
	if n < 1000 {
		return Exact(n)
	}
	size := float64(n)
	for _, unit := range []string{"kB", "MB", "GB", "TB", "PB"} {
		size /= 1000
		if size < 9.95 {
			return fmt.Sprintf("%.1f %s", size, unit)
		}
		if size < 999.5 {
			return fmt.Sprintf("%.0f %s", size, unit)
		}
	}
	return fmt.Sprintf("%.1f EB", size/1000)
}

// Exact returns a number of bytes with a comma between thousands.
func Exact(n int64) string {
	digits := strconv.FormatInt(n, 10)
	for i := len(digits) - 3; i > 0; i -= 3 {
		digits = digits[:i] + "," + digits[i:]
	}
	if n == 1 {
		return "1 byte"
	}
	return digits + " bytes"
}
