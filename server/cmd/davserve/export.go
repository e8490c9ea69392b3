package main

import (
	"context"
	"io"

	"davserve/internal/transfer"
)

const exportUsage = `usage: davserve export -folder FOLDER [-davd PROGRAM] [-quiet] DIR [PATH]

Copies files and directories from the folder of a server that is stopped into DIR, with
the times at which they were modified. DIR is made if it is not there. PATH is the
directory of the server that is copied (default: /, the outermost one). It is that of a
URL without the prefix of the server: a space in it is %20.

A file that is in DIR already, with the same length and the same time, is not copied
again. So an export that was interrupted goes on when it is run again. Nothing is removed
from DIR, and no symbolic link in it is followed.

`

const exportStatuses = `
exit status: 0 if everything is there and on the disk; 1 if something is not, and then a
message names it; 2 for a wrong command line
`

// exports is the command davserve export.
var exports = transferCommand{
	name: "export", usage: exportUsage, statuses: exportStatuses,
	did: "exported", skipped: "skipped as they were there", needsStore: true,
	run: transfer.Export,
}

// runExport exports what a server keeps. It returns the exit status.
func runExport(ctx context.Context, arguments []string, output, errorOutput io.Writer) int {
	return exports.start(ctx, arguments, output, errorOutput)
}
